/* 64 threads beside the first: 63 of them wait for one message each, which the last one sends; then all count under one lock. */
#define _GNU_SOURCE
#include <pthread.h>
#include <stdio.h>
#include <string.h>
#include <sys/msg.h>
#include <sys/sem.h>

enum { THREADS = 64, EACH = 3 };

static int queue, set, counted, received;

static int change(unsigned short number, short by)
{
    struct sembuf operation = {number, by, 0};
    return semop(set, &operation, 1);
}

static void count(int *counter)
{
    if (change(0, -1) < 0)
        perror("semop");
    ++*counter;
    if (change(0, 1) < 0)
        perror("semop");
}

static void send_all(void)
{
    struct { long type; char text; } message = {1, 'x'};
    while (semctl(set, 1, GETVAL) < THREADS - 1)
        ;
    for (message.type = 1; message.type < THREADS; message.type++)
        if (msgsnd(queue, &message, 1, 0) < 0)
            perror("msgsnd");
}

static void *work(void *number)
{
    struct { long type; char text; } message;
    long me = (long)number;
    if (me == 0)
        send_all();
    else if (change(1, 1) < 0 || msgrcv(queue, &message, 1, me, 0) != 1)
        perror("msgrcv");
    else
        count(&received);
    for (int at = 0; at < EACH; at++)
        count(&counted);
    return NULL;
}

int main(void)
{
    pthread_t threads[THREADS];
    queue = msgget(IPC_PRIVATE, 0600);
    set = semget(IPC_PRIVATE, 2, 0600);
    if (queue < 0 || set < 0 || semctl(set, 0, SETVAL, 1) < 0)
        perror("semget");
    for (long at = 0; at < THREADS; at++)
        pthread_create(threads + at, NULL, work, (void *)at);
    for (int at = 0; at < THREADS; at++)
        pthread_join(threads[at], NULL);
    printf("%d threads have received a message, and all have counted to %d\n", received, counted);
    return msgctl(queue, IPC_RMID, NULL) < 0 || semctl(set, 0, IPC_RMID) < 0;
}
