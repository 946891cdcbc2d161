/*
 * A program in threads with the prototypes of the system's headers: with -DKERNEL over the kernel, and else over the library. A boss hands out
 * numbers by a queue, four workers add them up under a lock of a semaphore, and wait for one another at its end. What it prints is the same by both.
 */
#ifdef KERNEL
#define _GNU_SOURCE
#include <sys/ipc.h>
#include <sys/msg.h>
#include <sys/sem.h>
#include <sys/shm.h>
#else
#include "ipcsh_sysv.h"
#endif

#include <errno.h>
#include <pthread.h>
#include <stdio.h>
#include <stdlib.h>
#include <string.h>

enum { WORKERS = 4, NUMBERS = 200, STOP = 2 };

union semun {
    int val;
    struct semid_ds *buf;
    unsigned short *array;
};

struct message {
    long type;
    int number;
};

static int queue, set, sum;

static void tell(const char *call, long answer)
{
    if (answer < 0)
        printf("%s: %s\n", call, strerror(errno));
    else
        printf("%s: %ld\n", call, answer);
}

/* A call that is refused here is a mistake of this program. */
static long must(long answer, const char *call)
{
    if (answer < 0) {
        perror(call);
        exit(1);
    }
    return answer;
}

/* The clients: one for each thread, and one for a stranger. Over the kernel there is nothing to do. */
#ifdef KERNEL
static void begin(void) {}
static void become(int number) { (void)number; }
static void end(void) {}
#else
static ipcsh *handles[WORKERS + 1];

static void begin(void)
{
    const struct ipcsh_limits limits = IPCSH_DEFAULT_LIMITS;
    struct ipcsh_client clients[WORKERS + 1];
    memset(clients, 0, sizeof clients);
    must(ipcsh_open(&limits, clients, WORKERS + 1, handles), "open");
}

static void become(int number) { ipcsh_use(handles[number]); }

static void end(void)
{
    for (int i = 0; i <= WORKERS; i++)
        ipcsh_close(handles[i]);
}
#endif

static void change(int number, int by)
{
    struct sembuf operation = {(unsigned short)number, (short)by, SEM_UNDO};
    must(semop(set, &operation, 1), "semop");
}

static void *work(void *given)
{
    struct message message;
    become(*(int *)given);
    for (;;) {
        must(msgrcv(queue, &message, sizeof message.number, -STOP, 0), "msgrcv");
        if (message.type == STOP)
            break;
        change(0, -1);
        sum += message.number;
        change(0, 1);
    }
    struct sembuf meet[] = {{1, -1, 0}, {1, 0, 0}};
    must(semop(set, meet, 1), "semop");
    must(semop(set, meet + 1, 1), "semop");
    return NULL;
}

static void send(long type, int number)
{
    struct message message = {type, number};
    must(msgsnd(queue, &message, sizeof message.number, 0), "msgsnd");
}

static void run_threads(void)
{
    pthread_t threads[WORKERS];
    int numbers[WORKERS];
    for (int i = 0; i < WORKERS; i++) {
        numbers[i] = i + 1;
        if (pthread_create(threads + i, NULL, work, numbers + i))
            exit(1);
    }
    for (int i = 1; i <= NUMBERS; i++)
        send(1, i);
    for (int i = 0; i < WORKERS; i++)
        send(STOP, 0);
    for (int i = 0; i < WORKERS; i++)
        pthread_join(threads[i], NULL);
    printf("the sum is %d\n", sum);
}

static void make(void)
{
    unsigned short values[3] = {1, WORKERS, 7}, told[3] = {9, 9, 9};
    union semun with = {.array = values};
    queue = (int)must(msgget(IPC_PRIVATE, 0600), "msgget");
    set = (int)must(semget(IPC_PRIVATE, 3, IPC_CREAT | 0600), "semget");
    tell("SETALL", semctl(set, 0, SETALL, with));
    with.array = told;
    tell("GETALL", semctl(set, 0, GETALL, with));
    printf("the values are %d %d %d\n", told[0], told[1], told[2]);
    with.val = 5;
    tell("SETVAL", semctl(set, 2, SETVAL, with));
    tell("GETVAL", semctl(set, 2, GETVAL));
    tell("GETNCNT", semctl(set, 2, GETNCNT));
    tell("GETZCNT", semctl(set, 2, GETZCNT));
    tell("GETPID of nobody", semctl(set, 4, GETPID));
}

/* IPC_SET and IPC_STAT of each kind. */
static void set_and_stat(void)
{
    struct msqid_ds messages;
    struct semid_ds semaphores;
    struct shmid_ds bytes;
    union semun with = {.buf = &semaphores};
    int segment = (int)must(shmget(IPC_PRIVATE, 100, 0600), "shmget");
    must(msgctl(queue, IPC_STAT, &messages), "IPC_STAT");
    messages.msg_perm.mode = 0640;
    messages.msg_qbytes = 1000;
    tell("IPC_SET", msgctl(queue, IPC_SET, &messages));
    send(1, 5);
    memset(&messages, 0xff, sizeof messages);
    tell("IPC_STAT", msgctl(queue, IPC_STAT, &messages));
    printf("mode 0%o, %lu messages of at most %lu bytes, key %d, %s\n", messages.msg_perm.mode, (unsigned long)messages.msg_qnum,
           (unsigned long)messages.msg_qbytes, messages.msg_perm.__key, messages.msg_stime && messages.msg_ctime ? "with times" : "without times");
    must(semctl(set, 0, IPC_STAT, with), "IPC_STAT");
    semaphores.sem_perm.mode = 0604;
    tell("IPC_SET", semctl(set, 0, IPC_SET, with));
    tell("IPC_STAT", semctl(set, 0, IPC_STAT, with));
    printf("mode 0%o, %lu semaphores\n", semaphores.sem_perm.mode, (unsigned long)semaphores.sem_nsems);
    must(shmctl(segment, IPC_STAT, &bytes), "IPC_STAT");
    bytes.shm_perm.mode = 0444;
    tell("IPC_SET", shmctl(segment, IPC_SET, &bytes));
    tell("IPC_STAT", shmctl(segment, IPC_STAT, &bytes));
    printf("mode 0%o, %lu bytes, %lu attachments\n", bytes.shm_perm.mode, (unsigned long)bytes.shm_segsz, (unsigned long)bytes.shm_nattch);
    bytes.shm_perm.uid = (uid_t)-1;
    tell("IPC_SET of no user", shmctl(segment, IPC_SET, &bytes));
    tell("IPC_RMID", shmctl(segment, IPC_RMID, NULL));
    tell("IPC_RMID once more", shmctl(segment, IPC_RMID, NULL));
}

/* What is refused. */
static void refuse(void)
{
    struct message message = {1, 2};
    struct sembuf more = {2, -6, IPC_NOWAIT}, outside = {3, 1, 0};
    union semun with = {.val = 40000};
    tell("msgget without IPC_CREAT", msgget(0x5ca1ab1e, 0));
    tell("msgsnd of type 0", msgsnd(queue, &(struct message){0, 0}, sizeof message.number, 0));
    tell("msgsnd of a negative size", msgsnd(queue, &message, (size_t)-1, 0));
    tell("msgrcv with too little room", msgrcv(queue, &message, 1, 0, 0));
    tell("msgrcv of less", msgrcv(queue, &message, 1, 0, MSG_NOERROR));
    printf("of type %ld the byte %d\n", message.type, *(unsigned char *)&message.number);
    tell("msgrcv of nothing", msgrcv(queue, &message, sizeof message.number, 0, IPC_NOWAIT));
    tell("semop of too many", semop(set, &more, 1));
    tell("semop outside", semop(set, &outside, 1));
    tell("semop of none", semop(set, &outside, 0));
    tell("SETVAL of too much", semctl(set, 0, SETVAL, with));
    tell("IPC_STAT to NULL", msgctl(queue, IPC_STAT, NULL));
    tell("msgctl of no command", msgctl(queue, 77, NULL));
    tell("semctl of no command", semctl(set, 0, 77));
    tell("a queue that there isn't", msgctl(-1, IPC_RMID, NULL));
}

int main(void)
{
    begin();
    become(0);
    make();
    run_threads();
    set_and_stat();
    refuse();
    tell("IPC_RMID", msgctl(queue, IPC_RMID, NULL));
    tell("IPC_RMID", semctl(set, 0, IPC_RMID));
    tell("msgget", msgsnd(queue, &(struct message){1, 1}, sizeof(int), 0));
    end();
    return 0;
}
