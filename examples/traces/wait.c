/* A process waits for a message of another one, answers it, waits again, and is interrupted by a signal. */
#include <signal.h>
#include <string.h>
#include <sys/ipc.h>
#include <sys/msg.h>
#include <sys/wait.h>
#include <unistd.h>

struct message {
    long mtype;
    char mtext[64];
};

static void on_signal(int signal) {
    (void)signal;
}

static void answer(int queue) {
    struct message message;
    struct sigaction action = {.sa_handler = on_signal};
    sigaction(SIGUSR1, &action, NULL);
    if (msgrcv(queue, &message, sizeof message.mtext, 1, 0) > 0) {
        message.mtype = 2;
        msgsnd(queue, &message, 6, 0);
    }
    msgrcv(queue, &message, sizeof message.mtext, 1, 0);
    _exit(0);
}

int main(void) {
    struct message message = {1, "what?"};
    int queue = msgget(IPC_PRIVATE, IPC_CREAT | 0600);
    pid_t child = fork();
    if (child == 0)
        answer(queue);
    usleep(200000);
    msgsnd(queue, &message, strlen(message.mtext) + 1, 0);
    msgrcv(queue, &message, sizeof message.mtext, 2, 0);
    usleep(200000);
    kill(child, SIGUSR1);
    waitpid(child, NULL, 0);
    return msgctl(queue, IPC_RMID, NULL) != 0;
}
