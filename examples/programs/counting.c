/* Four threads count to 800 under a lock, a semaphore that each lowers and raises with SEM_UNDO. */
#define _GNU_SOURCE
#include <pthread.h>
#include <stdio.h>
#include <sys/sem.h>

enum { THREADS = 4, EACH = 200 };

static int set;
static int counted; /* under the lock */

static int change(short by)
{
    struct sembuf operation = {0, by, SEM_UNDO};
    return semop(set, &operation, 1);
}

static void *count(void *unused)
{
    for (int at = 0; at < EACH; at++) {
        if (change(-1) < 0)
            perror("semop");
        int before = counted;
        counted = before + 1;
        if (change(1) < 0)
            perror("semop");
    }
    return unused;
}

int main(void)
{
    pthread_t threads[THREADS];
    set = semget(IPC_PRIVATE, 1, 0600);
    if (set < 0 || semctl(set, 0, SETVAL, 1) < 0) {
        perror("semget");
        return 1;
    }
    for (int at = 0; at < THREADS; at++)
        pthread_create(threads + at, NULL, count, NULL);
    for (int at = 0; at < THREADS; at++)
        pthread_join(threads[at], NULL);
    printf("counted %d, the value is %d\n", counted, semctl(set, 0, GETVAL));
    return semctl(set, 0, IPC_RMID) < 0;
}
