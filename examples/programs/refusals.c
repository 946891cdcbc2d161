/* The errno of each refusal that a process gets alone, whoever runs it. */
#define _GNU_SOURCE
#include <errno.h>
#include <pthread.h>
#include <stdio.h>
#include <string.h>
#include <sys/msg.h>
#include <sys/sem.h>
#include <sys/shm.h>
#include <unistd.h>

enum { KEY = 0x1bc0de, TOO_LONG = 8193, TOO_MANY = 501 };

static struct {
    long type;
    char text[TOO_LONG];
} message = {1, "text"};
static struct sembuf many[TOO_MANY];

/* Tells the errno of a call that should be refused. */
static void refused(const char *what, long answer)
{
    printf("%s: %s\n", what, answer == -1 ? strerrorname_np(errno) : "not refused");
}

static void gets(int queue, int set, int segment)
{
    refused("msgget of a key that no queue has", msgget(KEY, 0600));
    refused("semget of a key that no set has", semget(KEY, 1, 0600));
    refused("shmget of a key that no segment has", shmget(KEY, 1, 0600));
    int named = msgget(KEY, IPC_CREAT | 0600);
    refused("msgget with IPC_EXCL of a key that a queue has", msgget(KEY, IPC_CREAT | IPC_EXCL | 0600));
    msgctl(named, IPC_RMID, NULL);
    refused("semget of no semaphores", semget(IPC_PRIVATE, 0, 0600));
    refused("semget of -1 semaphores", semget(IPC_PRIVATE, -1, 0600));
    refused("shmget of no bytes", shmget(IPC_PRIVATE, 0, 0600));
    refused("msgctl of the identifier -1", msgctl(-1, IPC_RMID, NULL));
    refused("msgctl of a command that is none", msgctl(queue, 9999, NULL));
    refused("semctl of a command that is none", semctl(set, 0, 9999));
    refused("shmctl of a command that is none", shmctl(segment, 9999, NULL));
}

static void messages(int queue)
{
    refused("msgsnd of type 0", (message.type = 0, msgsnd(queue, &message, 4, 0)));
    message.type = 1;
    refused("msgsnd of 8193 bytes", msgsnd(queue, &message, TOO_LONG, 0));
    refused("msgsnd of -1 bytes", msgsnd(queue, &message, (size_t)-1, 0));
    msgsnd(queue, &message, 8192, 0);
    msgsnd(queue, &message, 8192, 0);
    refused("msgsnd to a full queue", msgsnd(queue, &message, 1, IPC_NOWAIT));
    refused("msgrcv of 4 bytes of 8192", msgrcv(queue, &message, 4, 0, 0));
    refused("msgrcv of a type that isn't there", msgrcv(queue, &message, 4, 9, IPC_NOWAIT));
    refused("msgrcv of -1 bytes", msgrcv(queue, &message, (size_t)-1, 0, IPC_NOWAIT));
}

static void semaphores(int set)
{
    struct sembuf down = {0, -1, IPC_NOWAIT}, outside = {1, 1, 0}, up[2] = {{0, 32767, 0}, {0, 1, 0}};
    refused("semop of no operation", semop(set, many, 0));
    refused("semop of 501 operations", semop(set, many, TOO_MANY));
    refused("semop that would wait", semop(set, &down, 1));
    refused("semop of a semaphore that isn't there", semop(set, &outside, 1));
    refused("semop above 32767", semop(set, up, 2));
    refused("semctl SETVAL of 32768", semctl(set, 0, SETVAL, 32768));
    refused("semctl SETVAL of -1", semctl(set, 0, SETVAL, -1));
    refused("semctl GETVAL of a semaphore that isn't there", semctl(set, 1, GETVAL));
    refused("semop after a removal", (semctl(set, 0, IPC_RMID), semop(set, &down, 1)));
}

static void segments(int segment)
{
    char here = 0;
    refused("shmget of more than the segment has", (segment = shmget(KEY, 10, IPC_CREAT | 0600), shmget(KEY, 11, 0600)));
    refused("shmdt where nothing is attached", shmdt(&here));
    refused("shmat at a place that is no page", (long)shmat(segment, (void *)1, 0));
    refused("shmat with SHM_REMAP at no place", (long)shmat(segment, NULL, SHM_REMAP));
    refused("shmat after a removal", (shmctl(segment, IPC_RMID, NULL), (long)shmat(segment, NULL, 0)));
}

static void *wait_on(void *set)
{
    struct sembuf down = {0, -1, 0};
    refused("semop while the set is removed", semop(*(int *)set, &down, 1));
    return NULL;
}

int main(void)
{
    pthread_t waiting;
    int queue = msgget(IPC_PRIVATE, 0600), set = semget(IPC_PRIVATE, 1, 0600), segment = shmget(IPC_PRIVATE, 1, 0600);
    gets(queue, set, segment);
    messages(queue);
    msgctl(queue, IPC_RMID, NULL);
    semaphores(set);
    shmctl(segment, IPC_RMID, NULL);
    segments(segment);
    set = semget(IPC_PRIVATE, 1, 0600);
    pthread_create(&waiting, NULL, wait_on, &set);
    while (semctl(set, 0, GETNCNT) == 0)
        usleep(10000);
    semctl(set, 0, IPC_RMID);
    pthread_join(waiting, NULL);
    return 0;
}
