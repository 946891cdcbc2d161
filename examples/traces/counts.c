/* A call of zeros waits at one semaphore, and then another one stops it before: where does GETZCNT count it? And one that takes. */
#define _GNU_SOURCE
#include <signal.h>
#include <sys/ipc.h>
#include <sys/sem.h>
#include <sys/wait.h>
#include <unistd.h>

static int set;

static pid_t waiting(struct sembuf *operations) {
    pid_t child = fork();
    if (child == 0) {
        semop(set, operations, 2);
        _exit(0);
    }
    usleep(200000);
    return child;
}

static void ended(pid_t child) {
    kill(child, SIGKILL);
    waitpid(child, NULL, 0);
}

int main(void) {
    struct sembuf zeros[2] = {{0, 0, 0}, {1, 0, 0}}, takes[2] = {{2, -1, 0}, {3, -1, 0}};
    struct sembuf raise = {0, 2, 0}, lower = {2, -1, 0};
    set = semget(IPC_PRIVATE, 4, 0600);
    semctl(set, 1, SETVAL, 1);
    semctl(set, 2, SETVAL, 1);
    pid_t child = waiting(zeros);
    semctl(set, 1, GETZCNT);
    semop(set, &raise, 1);
    semctl(set, 0, GETZCNT);
    semctl(set, 1, GETZCNT);
    ended(child);
    child = waiting(takes);
    semctl(set, 3, GETNCNT);
    semop(set, &lower, 1);
    semctl(set, 2, GETNCNT);
    semctl(set, 3, GETNCNT);
    ended(child);
    return semctl(set, 0, IPC_RMID) != 0;
}
