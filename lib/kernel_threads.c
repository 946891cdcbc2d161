/* Measures threads that make System V IPC calls of this machine's kernel: the same calls as crates/thread_bench. Its word
   is how many calls each measurement makes. A row for each measurement: what is asked for, `kernel`, how many threads
   there are, and the nanoseconds a call. It prints nothing where the kernel has no System V IPC. */
#define _GNU_SOURCE
#include <pthread.h>
#include <stdio.h>
#include <stdlib.h>
#include <string.h>
#include <sys/ipc.h>
#include <sys/msg.h>
#include <sys/sem.h>
#include <sys/shm.h>
#include <time.h>
#include <unistd.h>

enum task { GET, MESSAGE_64, MESSAGE_8192, SEMOP, MIX, HAND_OVER, DENIED, ONE_QUEUE, ONE_COUNTER, ONE_LOCK, ONE_SEGMENT, TASKS };

static const char *const words[TASKS] = {"get",       "message-64",  "message-8192", "semop",      "mix", "hand-over", "denied",
                                         "one-queue", "one-counter", "one-lock",     "one-segment"};
static const int counts[] = {1, 2, 4, 16, 64};

enum { MOST = 64, LONGEST = 8192 };

struct message {
    long type;
    char text[LONGEST];
};

struct client {
    enum task task;
    int number;
    int clients;
    long calls;
    long failed;
    int queue;
    int set;
    int segment;
    int peer;
    int holds; /* whether it has the message, or the lock */
    void *attached;
    pthread_t thread;
    struct message message;
};

static struct client clients[MOST];
static key_t first_key;

static void fail(const char *what) {
    perror(what);
    exit(1);
}

static key_t key_of(const struct client *c) {
    return c->task == GET || c->task == ONE_QUEUE ? first_key : first_key + c->number;
}

static key_t key_of_set(const struct client *c) {
    return c->task == ONE_COUNTER || c->task == ONE_LOCK ? first_key : IPC_PRIVATE;
}

/* A send where the client has the message, and else a receive. */
static long message(struct client *c, int to, size_t bytes, int flags) {
    if (c->holds) {
        c->holds = 0;
        return msgsnd(to, &c->message, bytes, IPC_NOWAIT);
    }
    c->holds = 1;
    return msgrcv(c->queue, &c->message, LONGEST, 0, flags);
}

static long operate(const struct client *c, int op) {
    struct sembuf oper = {0, (short)op, 0};
    return semop(c->set, &oper, 1);
}

/* Takes the lock, whose semaphore is 1 while a client holds it, or gives it back. */
static long lock(struct client *c) {
    struct sembuf opers[] = {{0, 0, 0}, {0, 1, 0}};
    c->holds = !c->holds;
    return c->holds ? semop(c->set, opers, 2) : operate(c, -1);
}

static long attach(struct client *c) {
    void *attached = c->attached;
    if (attached) {
        c->attached = NULL;
        return shmdt(attached);
    }
    c->attached = shmat(c->segment, NULL, 0);
    return c->attached == (void *)-1 ? -1 : 0;
}

static long mixed(struct client *c, long turn) {
    struct msqid_ds status;
    switch (turn) {
    case 0: return msgget(key_of(c), 0600) == c->queue ? 0 : -1;
    case 1: return message(c, c->queue, 64, IPC_NOWAIT);
    case 2: return msgctl(c->queue, IPC_STAT, &status);
    case 3: return operate(c, 1);
    case 4: return message(c, c->queue, 64, IPC_NOWAIT);
    default: return operate(c, -1);
    }
}

static long call(struct client *c, long turn) {
    switch (c->task) {
    case GET: return msgget(key_of(c), 0600) == c->queue ? 0 : -1;
    case MESSAGE_64:
    case ONE_QUEUE: return message(c, c->queue, 64, IPC_NOWAIT);
    case MESSAGE_8192: return message(c, c->queue, LONGEST, IPC_NOWAIT);
    case SEMOP:
    case ONE_COUNTER: return operate(c, turn % 2 ? -1 : 1);
    case MIX: return mixed(c, turn % 6);
    case HAND_OVER: return message(c, c->peer, 64, 0);
    case ONE_LOCK: return lock(c);
    case ONE_SEGMENT: return attach(c);
    default: return msgrcv(c->queue, &c->message, LONGEST, 0, IPC_NOWAIT) < 0 ? 0 : -1;
    }
}

static void *ask(void *argument) {
    struct client *c = argument;
    for (long turn = 0; turn < c->calls; turn++)
        if (call(c, turn) < 0) c->failed++;
    return NULL;
}

/* Whole turns of two, so that a client gives back what it took. */
static long calls_each(long calls, int count) {
    long turns = calls / count / 2;
    return turns < 1 ? 2 : turns * 2;
}

static void begin(struct client *c, enum task task, int number, int count, long calls) {
    *c = (struct client){.task = task, .number = number, .clients = count, .calls = calls_each(calls, count)};
    memset(c->message.text, 'a', LONGEST);
    c->message.type = 1;
    c->holds = task == HAND_OVER ? number % 2 == 0 : task != ONE_LOCK;
    c->queue = msgget(key_of(c), IPC_CREAT | (task == DENIED ? 0 : 0600));
    c->set = semget(key_of_set(c), 1, IPC_CREAT | 0600);
    c->segment = shmget(first_key, 1, IPC_CREAT | 0600);
    if (c->queue < 0 || c->set < 0 || c->segment < 0) fail("msgget, semget or shmget");
}

static void end(const struct client *c) {
    msgctl(c->queue, IPC_RMID, NULL);
    semctl(c->set, 0, IPC_RMID);
    if (c->attached) shmdt(c->attached);
    shmctl(c->segment, IPC_RMID, NULL);
    if (c->failed) fprintf(stderr, "%s: %ld calls of the kernel failed\n", words[c->task], c->failed);
}

static double measure(enum task task, int count, long calls) {
    struct timespec from, to;
    for (int i = 0; i < count; i++) begin(&clients[i], task, i, count, calls);
    for (int i = 0; i < count; i++) clients[i].peer = clients[(i ^ 1) < count ? i ^ 1 : i].queue;
    clock_gettime(CLOCK_MONOTONIC, &from);
    for (int i = 0; i < count; i++)
        if (pthread_create(&clients[i].thread, NULL, ask, &clients[i]) != 0) fail("pthread_create");
    for (int i = 0; i < count; i++) pthread_join(clients[i].thread, NULL);
    clock_gettime(CLOCK_MONOTONIC, &to);
    for (int i = 0; i < count; i++) end(&clients[i]);
    double passed = (double)(to.tv_sec - from.tv_sec) * 1e9 + (double)(to.tv_nsec - from.tv_nsec);
    return passed / (double)(calls_each(calls, count) * count);
}

int main(int argc, char **argv) {
    long calls = argc > 1 ? atol(argv[1]) : 1000;
    /* A superuser is denied nothing. */
    if (geteuid() == 0 && (setresgid(65534, 65534, 65534) != 0 || setresuid(65534, 65534, 65534) != 0)) fail("setresuid");
    int probe = msgget(IPC_PRIVATE, IPC_CREAT | 0600);
    if (probe < 0) return 0;
    msgctl(probe, IPC_RMID, NULL);
    first_key = (key_t)(0x49500000 + (getpid() & 0xffff) * 64);
    for (int task = 0; task < TASKS; task++)
        for (size_t i = 0; i < sizeof counts / sizeof *counts; i++)
            printf("%s kernel %d %.1f\n", words[task], counts[i], measure(task, counts[i], calls));
    return 0;
}
