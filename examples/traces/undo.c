/* Two processes at a semaphore with SEM_UNDO: one exits while it holds it, and the other, which waits, gets it. Then one waits with a
 * timeout that passes, and one is killed while it waits. */
#define _GNU_SOURCE
#include <signal.h>
#include <sys/ipc.h>
#include <sys/sem.h>
#include <sys/wait.h>
#include <time.h>
#include <unistd.h>

static struct sembuf take = {0, -1, SEM_UNDO};
static struct sembuf give = {0, 1, SEM_UNDO};

static pid_t started(int set, int seconds) {
    pid_t child = fork();
    if (child == 0) {
        semop(set, &take, 1);
        sleep(seconds);
        _exit(0);
    }
    usleep(200000);
    return child;
}

int main(void) {
    struct timespec half = {0, 500000000};
    int set = semget(0x1234, 1, IPC_CREAT | IPC_EXCL | 0600);
    semctl(set, 0, SETVAL, 1);
    pid_t holder = started(set, 1);
    semop(set, &take, 1);
    waitpid(holder, NULL, 0);
    semctl(set, 0, GETVAL);
    pid_t waiter = started(set, 1);
    semctl(set, 0, GETNCNT);
    semtimedop(set, &take, 1, &half);
    kill(waiter, SIGKILL);
    waitpid(waiter, NULL, 0);
    semctl(set, 0, GETNCNT);
    semop(set, &give, 1);
    semctl(set, 0, GETVAL);
    return semctl(set, 0, IPC_RMID) != 0;
}
