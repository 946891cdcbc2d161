/* The longest message, of every byte, and the largest sets of values and operations that Linux has. */
#define _GNU_SOURCE
#include <errno.h>
#include <stdio.h>
#include <string.h>
#include <sys/msg.h>
#include <sys/sem.h>
#include <sys/shm.h>

enum { TEXT = 8192, SEMS = 32000, OPS = 500, SEGMENT = 3000000 };

static struct message { long type; unsigned char text[TEXT]; } sent, received;
static unsigned short values[SEMS], answered[SEMS];
static struct sembuf operations[OPS];

static void messages(void)
{
    int queue = msgget(IPC_PRIVATE, 0600);
    sent.type = 0x7fffffffffffffff;
    for (int at = 0; at < TEXT; at++)
        sent.text[at] = (unsigned char)(at * 7 + at / 256);
    int error = msgsnd(queue, &sent, TEXT, 0);
    ssize_t length = msgrcv(queue, &received, TEXT, 0, 0);
    printf("msgsnd %d, msgrcv %zd, %s\n", error, length, memcmp(&sent, &received, sizeof sent) ? "another message" : "the same message");
}

static void semaphores(void)
{
    int set = semget(IPC_PRIVATE, SEMS, 0600), small = semget(IPC_PRIVATE, 10000, 0600);
    for (int at = 0; at < SEMS; at++)
        values[at] = at < 10000 ? 32767 : 0;
    int put = semctl(small, 0, SETALL, values), got = semctl(small, 0, GETALL, answered);
    printf("SETALL %d, GETALL %d, %s\n", put, got, memcmp(values, answered, 20000) ? "other values" : "the same values");
    printf("SETALL of 32000 long values: %s\n", semctl(set, 0, SETALL, memset(values, 0x7f, sizeof values)) < 0 ? strerrorname_np(errno) : "granted");
    for (int at = 0; at < OPS; at++)
        operations[at] = (struct sembuf){(unsigned short)(SEMS - 1 - at), 32767, SEM_UNDO};
    put = semop(set, operations, OPS);
    printf("semop of 500 operations %d, the last is %d\n", put, semctl(set, SEMS - OPS, GETVAL));
}

static void segments(void)
{
    int segment = shmget(IPC_PRIVATE, SEGMENT, 0600), wrong = 0;
    unsigned char *bytes = shmat(segment, NULL, 0);
    for (int at = 0; at < SEGMENT; at += 1000)
        bytes[at] = (unsigned char)(1 + at / 1000 % 255);
    memset(bytes + 500000, 0xa5, 100000);
    shmdt(bytes);
    bytes = shmat(segment, NULL, SHM_RDONLY);
    for (int at = 0; at < SEGMENT; at++)
        wrong += bytes[at] != (at >= 500000 && at < 600000 ? 0xa5 : at % 1000 ? 0 : 1 + at / 1000 % 255);
    printf("%d bytes of the segment are others\n", wrong);
}

int main(void)
{
    messages();
    semaphores();
    segments();
    return 0;
}
