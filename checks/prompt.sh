# ipcsh prompt: checks/prompt has sessions, NAME.in, what is typed, and NAME.out, what is printed; keys.typed and keys.shown are those of a terminal
# (lib/at_terminal.py).

check_prompt() { with_program with_crate ipcsh_explain prompt_checks; }

prompt_checks() {
    for file in checks/prompt/*.in; do
        attempt "$file" converses "${file%.in}"
    done
    attempt 'a script that is saved' prints_the_same_rows
    attempt 'help' tells_each_call
    attempt 'completion' completes
    attempt 'a terminal' is_typed_at
    attempt 'a history that cannot be written' is_typed_without_history
    attempt 'an open pipe' prompt_answers_each_line
    prompt_streams
}

# prompted STATUS WORD..: ipcsh with these words ends with this status, in the folder of what sessions write.
prompted() {
    wanted=$1
    shift
    mkdir -p "$scratch/room"
    status=0
    (cd "$scratch/room" && timeout 60 "$top/ipcsh" "$@") >"$scratch/out" 2>"$scratch/err" || status=$?
    why="status $status, not $wanted"
    cat "$scratch/out" "$scratch/err" >"$scratch/shown"
    [ "$status" = "$wanted" ] || return 1
    : >"$scratch/shown"
}

converses() {
    rm -rf "$scratch/room"
    prompted 0 prompt <"$1.in" || return 1
    same 'what it prints' "$1.out" "$scratch/out" && same 'its standard error' /dev/null "$scratch/err"
}

# Its rows are those of the session, and it stays as it is when it is read as people write.
prints_the_same_rows() {
    converses checks/prompt/saving || return 1
    grep '^[0-9][0-9.]* ' checks/prompt/saving.out >"$scratch/wanted"
    prompted 0 run saved.ipcsh || return 1
    same 'its rows' "$scratch/wanted" "$scratch/out" || return 1
    prompted 0 fmt --check saved.ipcsh || return 1
    why='the picture is none'
    head -n 1 "$scratch/room/run.svg" | grep -q '^<svg '
}

# of_prompt CODE: runs Python with what the prompt is made of.
of_prompt() {
    PYTHONPATH=lib/prompt:lib/fmt:lib/front:lib python3 -c "$1"
}

# Each call and directive has a text of some lines, which names it, and each word after `:` stands in the document.
tells_each_call() {
    why='one of them is not told:'
    of_prompt '
import calls, commands, pathlib
document = pathlib.Path("docs/PROMPT.md").read_text()
print("\n".join([it for it in calls.NAMES if len(calls.told(it)) < 3 or it not in calls.told(it)[0]]
                + [it for it in commands.COMMANDS if f"`:{it}" not in document and f"`{it}" not in document]))' 2>&1 | sed '/^$/d' >"$scratch/shown"
    [ ! -s "$scratch/shown" ]
}

# What may stand at the end of a line, in a session of a few lines.
completes() {
    of_prompt '
import completion, session
it = session.Session()
for line in ("client www-data 33 33", "client bob 1 1", "bob msgget 5 01600", "bob shmget 6 9 01600", "bob shmat 0 0"):
    it.take(line)
for before, word in (("", "w"), ("", "b"), ("", ":sa"), ("", "q"), ("www-data ", "shm"), ("bob ", "msgs"), ("bob msgsnd ", ""), ("bob rmid ", "s"), ("bob shmdt ", ""),
                     ("bob msgget 5 ", "IPC_"), ("bob msgget 5 IPC_CREAT|", "IPC_E"), ("bob msgget ", "I"), ("help ", "semt"), (":who ", "q"), (":save ", "checks/prompt/w"),
                     ("bob ", "fo"), ("bob fork ", "w"), ("bob interrupt ", "b"), ("carol ", "m"), ("bob msgegt ", ""), ("bob exit ", "")):
    print(f"{before}[{word}]", *completion.candidates(before, word, it), sep="|")' >"$scratch/out" 2>"$scratch/shown"
    why='it fails'
    [ ! -s "$scratch/shown" ] || return 1
    same 'what it offers' checks/prompt/completed "$scratch/out"
}

# typed_at FOLDER: what a terminal shows of the keys, with the history in this folder.
typed_at() {
    status=0
    XDG_STATE_HOME=$1 timeout 120 python3 lib/at_terminal.py ./ipcsh <checks/prompt/keys.typed >"$scratch/out" 2>"$scratch/shown" || status=$?
    why="status $status, not 0"
    [ "$status" = 0 ] || return 1
    sed "s/^ipcsh $(cat VERSION):/ipcsh:/; s/\^C$//" "$scratch/out" >"$scratch/seen"
    same 'what the terminal shows' checks/prompt/keys.shown "$scratch/seen"
}

is_typed_at() {
    rm -rf "$scratch/state"
    typed_at "$scratch/state" || return 1
    why='its history lacks a line'
    grep -q -x 'www-data msgget 5 IPC_CREAT|0600' "$scratch/state/ipcsh/history" && grep -q -x 'clock 9' "$scratch/state/ipcsh/history"
}

is_typed_without_history() {
    typed_at /dev/null
}

# A line through an open pipe is answered before the next one is written.
prompt_answers_each_line() {
    mkfifo "$scratch/prompt.lines" "$scratch/prompt.rows"
    timeout 60 ./ipcsh prompt <"$scratch/prompt.lines" >"$scratch/prompt.rows" 2>/dev/null &
    exec 3>"$scratch/prompt.lines" 4<"$scratch/prompt.rows"
    answered=0
    ask 'clock 7' 't=0> clock 7' && ask 'clock 8' 't=7> clock 8' || answered=1
    exec 3>&- 4<&-
    wait $! || :
    rm "$scratch/prompt.lines" "$scratch/prompt.rows"
    [ "$answered" = 0 ]
}

prompt_streams() {
    attempt 'no input' prompted 0 prompt </dev/null
    attempt 'a last line without its end' ends_in_a_line
    attempt 'standard input closed' prompted 2 prompt <&-
    attempt 'a full disk' fails_to_write 'ipcsh prompt' './ipcsh prompt <checks/prompt/undo.in >/dev/full'
    attempt 'standard output closed' fails_to_write 'ipcsh prompt' './ipcsh prompt <checks/prompt/undo.in >&-'
    attempt 'a reader that has gone' ends_without_reader
    attempt 'another word' prompted 3 prompt twice
}

ends_in_a_line() {
    printf 'clock 7\nclock 8' | prompted 0 prompt || return 1
    printf 't=0> clock 7\nt=7> clock 8\n' >"$scratch/wanted"
    same 'what it prints' "$scratch/wanted" "$scratch/out"
}

ends_without_reader() {
    status=0
    without_reader ./ipcsh prompt <checks/prompt/undo.in 2>"$scratch/shown" || status=$?
    why="status $status, not 243"
    [ "$status" = 243 ] && [ ! -s "$scratch/shown" ]
}
