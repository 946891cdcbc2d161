/*
 * A server forks two workers, which share its table and its lock. The first takes the lock with SEM_UNDO and waits for a job that never comes, until
 * it is killed: its lock comes back, and the second worker, which waits for it, goes on and does the job.
 */
#include "ipcsh.h"

#include <pthread.h>
#include <stdio.h>
#include <stdlib.h>

enum { WORKERS = 2, FIRST_PID = 11, JOB = 1 };

/* A worker, in a thread of its own. What the server made it knows by number; the attachment is a copy of the server's. */
struct worker {
    pthread_t thread;
    ipcsh *handle;
    uint32_t lock, jobs, table;
    int error;
    struct ipcsh_reply reply;
};

static const struct ipcsh_semop take = {.num = 0, .op = -1, .flags = IPCSH_SEM_UNDO}, give = {.num = 0, .op = 1, .flags = IPCSH_SEM_UNDO};

/* A call that is refused here is a mistake of this program. */
static void must(int code, const char *call)
{
    if (code == 0)
        return;
    fprintf(stderr, "%s: %d\n", call, code);
    exit(1);
}

/* Adds the number of a job to the table, under the lock. A worker that is killed ends with the first call that is refused. */
static void *work(void *given)
{
    struct worker *it = given;
    uint32_t number, sum;
    if ((it->error = ipcsh_semop(it->handle, 0, it->lock, &take, 1, &it->reply)))
        return NULL;
    if ((it->error = ipcsh_msgrcv(it->handle, 0, it->jobs, &number, sizeof number, JOB, 0, &it->reply)))
        return NULL;
    must(ipcsh_shmread(it->handle, 0, it->table, 0, &sum, sizeof sum, &it->reply), "shmread");
    sum += number;
    must(ipcsh_shmwrite(it->handle, 0, it->table, 0, &sum, sizeof sum, &it->reply), "shmwrite");
    must(ipcsh_semop(it->handle, 0, it->lock, &give, 1, &it->reply), "semop");
    must(ipcsh_exit(it->handle, 0, &it->reply), "exit");
    return NULL;
}

/* Forks a worker into client `number`, and starts its thread. A client is at first a process of its own, which has to end before. */
static void start(ipcsh *server, struct worker *it, uint32_t number)
{
    must(ipcsh_exit(it->handle, 0, &it->reply), "exit");
    must(ipcsh_fork(server, 0, number, FIRST_PID + number - 1, &it->reply), "fork");
    must(pthread_create(&it->thread, NULL, work, it), "pthread_create");
}

/* Looks at the lock until its value is 0 and so many calls wait for it. */
static void await_lock(ipcsh *server, uint32_t lock, uint32_t waiting)
{
    struct ipcsh_reply reply;
    uint32_t value = 1, count = 0;
    while (value > 0 || count < waiting) {
        sched_yield();
        must(ipcsh_getval(server, 0, lock, 0, &reply, &value), "getval");
        must(ipcsh_getncnt(server, 0, lock, 0, &reply, &count), "getncnt");
    }
}

static void join(struct worker *it, const char *name)
{
    must(pthread_join(it->thread, NULL), "pthread_join");
    if (it->error)
        printf("%s worker: error %d, %s\n", name, it->error, ipcsh_rule_name(it->reply.rule));
    else
        printf("%s worker: done\n", name);
}

/* The lock, the queue of jobs, and the table, which the server attaches before it forks. */
static struct worker made_by(ipcsh *server)
{
    struct worker it = {.handle = server};
    uint32_t segment;
    must(ipcsh_semget(server, 0, 0, 1, 0600, &it.reply, &it.lock), "semget");
    must(ipcsh_setval(server, 0, it.lock, 0, 1, &it.reply), "setval");
    must(ipcsh_msgget(server, 0, 0, 0600, &it.reply, &it.jobs), "msgget");
    must(ipcsh_shmget(server, 0, 0, sizeof(uint32_t), 0600, &it.reply, &segment), "shmget");
    must(ipcsh_shmat(server, 0, segment, 0, &it.reply, &it.table), "shmat");
    return it;
}

int main(void)
{
    const struct ipcsh_limits limits = IPCSH_DEFAULT_LIMITS;
    const struct ipcsh_client clients[1 + WORKERS] = {{.uid = 100, .gid = 10}, {.uid = 100, .gid = 10}, {.uid = 100, .gid = 10}};
    ipcsh *handles[1 + WORKERS];
    struct ipcsh_reply reply;
    uint32_t number = 7, sum, value;
    must(ipcsh_open(&limits, clients, 1 + WORKERS, handles), "open");
    const struct worker server = made_by(handles[0]);
    struct worker first = server, second = server;
    first.handle = handles[1];
    second.handle = handles[2];
    start(server.handle, &first, 1);
    await_lock(server.handle, server.lock, 0);
    start(server.handle, &second, 2);
    await_lock(server.handle, server.lock, 1);
    must(ipcsh_kill(server.handle, 0, FIRST_PID, &reply), "kill");
    join(&first, "first");
    must(ipcsh_msgsnd(server.handle, 0, server.jobs, JOB, &number, sizeof number, 0, &reply), "msgsnd");
    join(&second, "second");
    must(ipcsh_shmread(server.handle, 0, server.table, 0, &sum, sizeof sum, &reply), "shmread");
    must(ipcsh_getval(server.handle, 0, server.lock, 0, &reply, &value), "getval");
    printf("the table has %u, and the lock is %s\n", sum, value ? "free" : "taken");
    for (int i = 0; i < 1 + WORKERS; i++)
        ipcsh_close(handles[i]);
    return 0;
}
