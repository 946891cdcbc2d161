/* 65 threads that all have to wait: 63 do, and 2 are told that they can't. */
#define _GNU_SOURCE
#include <errno.h>
#include <pthread.h>
#include <stdio.h>
#include <sys/sem.h>

enum { THREADS = 65 };

static int set, refused, served;

static void *take(void *unused)
{
    struct sembuf down = {0, -1, 0};
    if (semop(set, &down, 1) == 0)
        __atomic_add_fetch(&served, 1, __ATOMIC_SEQ_CST);
    else if (errno == EAGAIN)
        __atomic_add_fetch(&refused, 1, __ATOMIC_SEQ_CST);
    return unused;
}

int main(void)
{
    pthread_t threads[THREADS];
    set = semget(IPC_PRIVATE, 1, 0600);
    for (int at = 0; at < THREADS; at++)
        pthread_create(threads + at, NULL, take, NULL);
    while (semctl(set, 0, GETNCNT) < THREADS - 2 || __atomic_load_n(&refused, __ATOMIC_SEQ_CST) < 2)
        ;
    semctl(set, 0, SETVAL, THREADS);
    for (int at = 0; at < THREADS; at++)
        pthread_join(threads[at], NULL);
    printf("%d served, %d refused, the value is %d\n", served, refused, semctl(set, 0, GETVAL));
    return 0;
}
