/* Measures single System V IPC calls of this machine's kernel: those of crates/ipc_bench that it has, with the same names
   and sizes. Its argument is how many calls each measurement makes. A row for each measurement: NAME|SIZE|NANOSECONDS,
   the median of five. It prints nothing where the kernel has no System V IPC. */
#define _GNU_SOURCE
#include <pthread.h>
#include <stdio.h>
#include <stdlib.h>
#include <string.h>
#include <sys/ipc.h>
#include <sys/msg.h>
#include <sys/sem.h>
#include <time.h>
#include <unistd.h>

enum { RUNS = 5, MOST = 64, LONGEST = 8192, LAST = 2, BEFORE = 1 };

struct message {
    long type;
    char text[LONGEST];
};

static struct message text;
static struct sembuf operations[500];
static unsigned next_number;

static void fail(const char *what) {
    perror(what);
    exit(1);
}

static int made(int id) {
    if (id < 0) fail("a get");
    return id;
}

static void done(long result) {
    if (result < 0) fail("a call");
}

/* Numbers in no visible order: those of crates/test_support. */
static unsigned below(unsigned limit) {
    next_number = next_number * 1664525u + 1013904223u;
    return (next_number >> 8) % limit;
}

static void send_to(int id, long type, size_t bytes) {
    text.type = type;
    done(msgsnd(id, &text, bytes, IPC_NOWAIT));
}

static void receive_from(int id, long type) { done(msgrcv(id, &text, LONGEST, type, IPC_NOWAIT)); }

static int queue(void) { return made(msgget(IPC_PRIVATE, 0600)); }

static void make_key(int size, key_t *keys, int *ids) {
    for (int i = 0; i < size; i++) {
        keys[i] = (key_t)(0x49510000u + (unsigned)(getpid() & 0x7fff) * 1024u + (unsigned)i);
        ids[i] = made(msgget(keys[i], IPC_CREAT | 0600));
    }
}

static double since(struct timespec from) {
    struct timespec to;
    clock_gettime(CLOCK_MONOTONIC, &to);
    return (double)(to.tv_sec - from.tv_sec) * 1e9 + (double)(to.tv_nsec - from.tv_nsec);
}

static struct timespec now(void) {
    struct timespec at;
    clock_gettime(CLOCK_MONOTONIC, &at);
    return at;
}

static double get_of_a_key(int size, long calls) {
    static key_t keys[1000];
    static int ids[1000];
    make_key(size, keys, ids);
    struct timespec from = now();
    for (long i = 0; i < calls; i++) done(msgget(keys[below((unsigned)size)], 0600));
    double passed = since(from);
    for (int i = 0; i < size; i++) msgctl(ids[i], IPC_RMID, NULL);
    return passed;
}

static double status(int size, long calls) {
    struct msqid_ds told;
    int id = queue();
    (void)size;
    struct timespec from = now();
    for (long i = 0; i < calls; i++) done(msgctl(id, IPC_STAT, &told));
    double passed = since(from);
    msgctl(id, IPC_RMID, NULL);
    return passed;
}

static double denied(int size, long calls) {
    int id = made(msgget(IPC_PRIVATE, 0));
    (void)size;
    struct timespec from = now();
    for (long i = 0; i < calls; i++)
        if (msgrcv(id, &text, LONGEST, 0, IPC_NOWAIT) >= 0) fail("a denied call");
    double passed = since(from);
    msgctl(id, IPC_RMID, NULL);
    return passed;
}

static double pass(int bytes, long calls) {
    int id = queue();
    struct timespec from = now();
    for (long i = 0; i < calls; i++) {
        send_to(id, LAST, (size_t)bytes);
        receive_from(id, LAST);
    }
    double passed = since(from);
    msgctl(id, IPC_RMID, NULL);
    return passed;
}

/* Of a queue with `before` messages of another type and one of each of `types` types. */
static double receive_and_send(int before, int types, long calls) {
    int id = queue();
    for (int i = 0; i < before; i++) send_to(id, BEFORE, 0);
    for (int i = 0; i < types; i++) send_to(id, LAST + i, 0);
    struct timespec from = now();
    for (long i = 0; i < calls; i++) {
        long type = LAST + (long)below((unsigned)types);
        receive_from(id, type);
        send_to(id, type, 0);
    }
    double passed = since(from);
    msgctl(id, IPC_RMID, NULL);
    return passed;
}

static double receive_last(int messages, long calls) { return receive_and_send(messages - 1, 1, calls); }

static double receive_among(int types, long calls) { return receive_and_send(0, types, calls); }

/* Threads that wait until what they wait on is removed. */
static int busy;

static void *wait_for_any(void *nothing) {
    struct message came;
    (void)nothing;
    (void)msgrcv(busy, &came, LONGEST, 0, 0);
    return NULL;
}

static void *wait_for_a_rise(void *nothing) {
    struct sembuf lower = {0, -1, 0};
    (void)nothing;
    (void)semop(busy, &lower, 1);
    return NULL;
}

static void wait_all(pthread_t *threads, int waiting, void *(*wait)(void *)) {
    for (int i = 0; i < waiting; i++)
        if (pthread_create(&threads[i], NULL, wait, NULL) != 0) fail("pthread_create");
    usleep(100000);
}

static void join_all(pthread_t *threads, int waiting) {
    for (int i = 0; i < waiting; i++) pthread_join(threads[i], NULL);
}

static double while_others_wait(int waiting, long calls) {
    pthread_t threads[MOST];
    busy = queue();
    wait_all(threads, waiting, wait_for_any);
    double passed = pass(0, calls);
    msgctl(busy, IPC_RMID, NULL);
    join_all(threads, waiting);
    return passed;
}

static double operate(int count, short flags, long calls) {
    int id = made(semget(IPC_PRIVATE, count, 0600));
    for (int i = 0; i < count; i++) operations[i] = (struct sembuf){(unsigned short)i, 1, flags};
    done(semop(id, operations, (size_t)count));
    struct timespec from = now();
    for (long i = 0; i < calls; i++) {
        short op = i % 2 ? 1 : -1;
        for (int o = 0; o < count; o++) operations[o].sem_op = op;
        done(semop(id, operations, (size_t)count));
    }
    double passed = since(from);
    semctl(id, 0, IPC_RMID);
    return passed;
}

static double keeps(int count, long calls) { return operate(count, 0, calls); }

static double undoes(int count, long calls) { return operate(count, SEM_UNDO, calls); }

static double beside_waiting(int waiting, long calls) {
    pthread_t threads[MOST];
    busy = made(semget(IPC_PRIVATE, 1, 0600));
    wait_all(threads, waiting, wait_for_a_rise);
    double passed = operate(1, 0, calls);
    semctl(busy, 0, IPC_RMID);
    join_all(threads, waiting);
    return passed;
}

static const struct {
    const char *name;
    double (*run)(int size, long calls);
    int sizes[5];
} tasks[] = {
    {"Space::apply, msgget of a key", get_of_a_key, {16, 1000, -1}},
    {"Space::apply, IPC_STAT", status, {1, -1}},
    {"Space::apply, a denied msgrcv", denied, {1, -1}},
    {"Space::apply, msgsnd and msgrcv", pass, {0, 64, 1024, 8192, -1}},
    {"Space::apply, msgrcv of the last", receive_last, {1, 100, 1000, -1}},
    {"Space::apply, msgrcv of any type", receive_among, {1, 100, 1000, -1}},
    {"Space::apply, while others wait", while_others_wait, {0, 1, 16, 62, -1}},
    {"Space::apply, semop", keeps, {1, 2, 10, 500, -1}},
    {"Space::apply, semop with SEM_UNDO", undoes, {1, 2, 10, 500, -1}},
    {"Space::apply, semop beside waiting", beside_waiting, {0, 16, 62, -1}},
};

static int earlier(const void *a, const void *b) {
    double difference = *(const double *)a - *(const double *)b;
    return (difference > 0) - (difference < 0);
}

int main(int argc, char **argv) {
    long calls = argc > 1 ? atol(argv[1]) : 1000;
    /* A superuser is denied nothing. */
    if (geteuid() == 0 && (setresgid(65534, 65534, 65534) != 0 || setresuid(65534, 65534, 65534) != 0)) fail("setresuid");
    int probe = msgget(IPC_PRIVATE, IPC_CREAT | 0600);
    if (probe < 0) return 0;
    msgctl(probe, IPC_RMID, NULL);
    for (size_t t = 0; t < sizeof tasks / sizeof *tasks; t++)
        for (int s = 0; tasks[t].sizes[s] >= 0; s++) {
            double runs[RUNS];
            for (int r = 0; r < RUNS; r++) runs[r] = tasks[t].run(tasks[t].sizes[s], calls);
            qsort(runs, RUNS, sizeof *runs, earlier);
            printf("%s|%d|%.1f\n", tasks[t].name, tasks[t].sizes[s], runs[RUNS / 2] / (double)calls);
        }
    return 0;
}
