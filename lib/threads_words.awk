# The documents' words for the tasks of `./bench threads`.
function words_of(task) {
    if (task == "get") return "msgget of a key"
    if (task == "message-64") return "msgsnd or msgrcv of 64 bytes"
    if (task == "message-8192") return "msgsnd or msgrcv of 8,192 bytes"
    if (task == "mix") return "a mix of calls"
    if (task == "hand-over") return "a message handed over between two"
    if (task == "denied") return "a denied msgrcv"
    if (task == "one-queue") return "a message of 64 bytes, one queue"
    if (task == "one-counter") return "semop, one semaphore for all"
    if (task == "one-lock") return "a lock, one for all"
    if (task == "one-segment") return "shmat or shmdt, one segment"
    return task
}

# Whether clients call at the same object in a task. A get asks for the key of one queue.
function is_at_one(task) { return task == "get" || task ~ /^one-/ }

function is_drawn(task, objects) { return !objects || is_at_one(task) == (objects == "one") }
