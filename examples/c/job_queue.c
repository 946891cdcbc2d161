/*
 * A queue of jobs: a boss hands out numbers, three workers square them, each in a thread of its own. Whoever finds calls serves them, so there is
 * no lock, and which worker gets which job is left open. What is printed isn't.
 */
#include "ipcsh.h"

#include <pthread.h>
#include <stdio.h>
#include <stdlib.h>

enum { WORKERS = 3, JOBS = 12, JOB = 1, STOP = 2 };

struct worker {
    pthread_t thread;
    ipcsh *handle;
    uint32_t jobs, results; /* the queues */
};

/* A call that is refused here is a mistake of this program. */
static void must(int code, const char *call)
{
    if (code == 0)
        return;
    fprintf(stderr, "%s: %d\n", call, code);
    exit(1);
}

/* Jobs come before the message that ends the work: a msgtyp of -2 asks for the lowest type. */
static void *work(void *given)
{
    struct worker *it = given;
    struct ipcsh_reply reply;
    uint32_t number;
    for (;;) {
        must(ipcsh_msgrcv(it->handle, 0, it->jobs, &number, sizeof number, -STOP, 0, &reply), "msgrcv");
        if (reply.mtype == STOP)
            return NULL;
        uint32_t square = number * number;
        must(ipcsh_msgsnd(it->handle, 0, it->results, number, &square, sizeof square, 0, &reply), "msgsnd");
    }
}

int main(void)
{
    struct ipcsh_limits limits = IPCSH_DEFAULT_LIMITS;
    struct ipcsh_client clients[1 + WORKERS] = {{.uid = 100, .gid = 10}, {.uid = 101, .gid = 10}, {.uid = 102, .gid = 10}, {.uid = 103, .gid = 10}};
    ipcsh *handles[1 + WORKERS];
    struct worker workers[WORKERS];
    struct ipcsh_reply reply;
    uint32_t jobs, results;
    must(ipcsh_open(&limits, clients, 1 + WORKERS, handles), "open");
    ipcsh *boss = handles[0];
    must(ipcsh_msgget(boss, 0, 1, IPCSH_CREAT | 0660, &reply, &jobs), "msgget");
    must(ipcsh_msgget(boss, 0, 2, IPCSH_CREAT | 0660, &reply, &results), "msgget");
    for (int i = 0; i < WORKERS; i++) {
        workers[i] = (struct worker){.handle = handles[1 + i], .jobs = jobs, .results = results};
        must(pthread_create(&workers[i].thread, NULL, work, &workers[i]), "pthread_create");
    }
    for (uint32_t number = 1; number <= JOBS; number++)
        must(ipcsh_msgsnd(boss, 0, jobs, JOB, &number, sizeof number, 0, &reply), "msgsnd");
    for (int i = 0; i < WORKERS; i++)
        must(ipcsh_msgsnd(boss, 0, jobs, STOP, "", 0, 0, &reply), "msgsnd");
    for (uint32_t number = 1; number <= JOBS; number++) {
        uint32_t square;
        must(ipcsh_msgrcv(boss, 0, results, &square, sizeof square, number, 0, &reply), "msgrcv");
        printf("job %u: %u\n", number, square);
    }
    for (int i = 0; i < WORKERS; i++)
        must(pthread_join(workers[i].thread, NULL), "pthread_join");
    struct ipcsh_object queue;
    must(ipcsh_stat(boss, 0, IPCSH_QUEUE, jobs, &queue, &reply), "stat");
    printf("jobs left: %u\n", (unsigned)queue.count);
    /* A call that is refused says why. */
    int code = ipcsh_rmid(workers[0].handle, 0, IPCSH_QUEUE, jobs, &reply);
    printf("a worker removes the queue: error %d, %s\n", code, ipcsh_rule_name(reply.rule));
    for (int i = 0; i < 1 + WORKERS; i++)
        ipcsh_close(handles[i]);
    return 0;
}
