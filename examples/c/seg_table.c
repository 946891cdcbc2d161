/*
 * A table of counters in a shared memory segment, guarded by a semaphore: a client locks with SEM_UNDO, reads a row, adds to it, writes it back,
 * and unlocks. One client exits with the lock, and the other gets it: what the first left undone is undone, and the table is as it was written.
 */
#include "ipcsh.h"

#include <stdio.h>
#include <stdlib.h>

enum { KEY = 7, SIZE = 64, ROW = 2 * sizeof(uint32_t) };

/* What a client has of the table. */
struct table {
    ipcsh *handle;
    unsigned number;
    uint32_t lock, rows; /* the set, and the attachment */
};

/* A call that is refused here is a mistake of this program. */
static void must(int code, const char *call)
{
    if (code == 0)
        return;
    fprintf(stderr, "%s: %d\n", call, code);
    exit(1);
}

/* Takes the lock, or waits for it. This call doesn't block, so a program can go on meanwhile: `code` says how far the call is. */
static int lock(const struct table *it)
{
    const struct ipcsh_semop take = {.num = 0, .op = -1, .flags = IPCSH_SEM_UNDO};
    struct ipcsh_request request = ipcsh_request_of(IPCSH_SEMOP, 0);
    const struct ipcsh_lists lists = {.ops = &take, .ops_len = 1};
    struct ipcsh_reply reply;
    int code;
    request.id = it->lock;
    must(ipcsh_post(it->handle, &request, &lists), "post");
    while ((code = ipcsh_advance(it->handle, &reply, NULL)) == IPCSH_IN_FLIGHT)
        continue;
    must(code == IPCSH_OK ? (int)reply.error : 0, "semop");
    return code;
}

/* Adds 1 to a row of the table, and unlocks it. */
static void add_locked(const struct table *it)
{
    const struct ipcsh_semop give = {.num = 0, .op = 1, .flags = IPCSH_SEM_UNDO};
    struct ipcsh_reply reply;
    uint32_t value;
    must(ipcsh_shmread(it->handle, 0, it->rows, ROW, &value, sizeof value, &reply), "read");
    printf("client %u: %u before\n", it->number, value);
    value++;
    must(ipcsh_shmwrite(it->handle, 0, it->rows, ROW, &value, sizeof value, &reply), "write");
    must(ipcsh_semop(it->handle, 0, it->lock, &give, 1, &reply), "semop");
}

static void add(const struct table *it)
{
    if (lock(it) == IPCSH_OK)
        add_locked(it);
    else
        printf("client %u: waits for the lock\n", it->number);
}

/* Finds or creates the table, and attaches it. */
static struct table table_of(ipcsh *handle, unsigned number)
{
    struct table it = {.handle = handle, .number = number};
    struct ipcsh_reply reply;
    uint32_t segment;
    must(ipcsh_semget(handle, 0, KEY, 1, IPCSH_CREAT | 0600, &reply, &it.lock), "semget");
    must(ipcsh_shmget(handle, 0, KEY, SIZE, IPCSH_CREAT | 0600, &reply, &segment), "shmget");
    must(ipcsh_shmat(handle, 0, segment, 0, &reply, &it.rows), "shmat");
    return it;
}

int main(void)
{
    const struct ipcsh_limits limits = IPCSH_DEFAULT_LIMITS;
    const struct ipcsh_client clients[] = {{.uid = 100, .gid = 10}, {.uid = 100, .gid = 10}};
    ipcsh *handles[2];
    struct ipcsh_reply reply;
    must(ipcsh_open(&limits, clients, 2, handles), "open");
    const struct table first = table_of(handles[0], 0), second = table_of(handles[1], 1);
    must(ipcsh_setval(first.handle, 0, first.lock, 0, 1, &reply), "setval");
    add(&first);
    add(&second);
    lock(&first);
    add(&second);
    must(ipcsh_exit(first.handle, 0, &reply), "exit");
    /* The exit gave the lock back, and the second client's semop ended with it. */
    must(ipcsh_wait(second.handle, &reply, NULL), "wait");
    must((int)reply.error, "semop");
    add_locked(&second);
    ipcsh_close(first.handle);
    ipcsh_close(second.handle);
    return 0;
}
