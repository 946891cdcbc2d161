/* Semaphore sets: semget(2), semop(2), semctl(2). */
#define _GNU_SOURCE
#include "ipcrun.h"

#include <errno.h>
#include <stdarg.h>
#include <stdlib.h>
#include <string.h>
#include <sys/sem.h>
#include <unistd.h>

enum { TIMEOUT_MOST = 1000000000 };

/* semctl(2) lets its caller declare this. */
union semun {
    int val;
    struct semid_ds *buf;
    unsigned short *array;
};

FOR_PROGRAMS int semget(key_t key, int count, int flags)
{
    int id = (int)simple_call("semget %u %u 0%o", (unsigned)key, (unsigned)count, (unsigned)flags);
    if (id >= 0)
        size_note(SET, id, (size_t)count);
    return id;
}

/* When a timeout from now on is over, at the latest: the clock of the script lags by a tick of the kernel's, and so may each reading of it. */
static void set_deadline(struct call *call, const struct timespec *timeout)
{
    struct timespec tick = {0};
    clock_getres(CLOCK_REALTIME_COARSE, &tick);
    clock_gettime(CLOCK_MONOTONIC, &call->until);
    call->timed = true;
    if (timeout->tv_sec == 0 && timeout->tv_nsec == 0)
        return;
    time_t seconds = timeout->tv_sec < TIMEOUT_MOST ? timeout->tv_sec : TIMEOUT_MOST;
    call->timeout = ticks_of(&(struct timespec){seconds, timeout->tv_nsec}) + ticks_of(&tick);
    call->until.tv_sec += seconds;
    call->until.tv_nsec += timeout->tv_nsec + 2 * tick.tv_nsec;
    while (call->until.tv_nsec >= 1000000000) {
        call->until.tv_nsec -= 1000000000;
        call->until.tv_sec++;
    }
}

/* The operations, each with IPC_NOWAIT where no client is left to wait. The answer is whether all have it anyway. */
static bool say_operations(struct call *call, const struct sembuf *operations, size_t count)
{
    bool waits = false;
    for (size_t at = 0; at < count; at++) {
        unsigned flags = (unsigned short)operations[at].sem_flg;
        waits |= !(flags & IPC_NOWAIT);
        call_say(call, " %u:%d:0%o", operations[at].sem_num, operations[at].sem_op, flags | (must_not_wait(call) ? IPC_NOWAIT : 0));
    }
    return !waits;
}

FOR_PROGRAMS int semtimedop(int id, struct sembuf *operations, size_t count, const struct timespec *timeout)
{
    struct call call;
    if (count == 0)
        return (int)fail_with(EINVAL);
    if (count > SEMOPM_OPS)
        return (int)fail_with(E2BIG);
    if (!operations)
        return (int)fail_with(EFAULT);
    if (timeout && (timeout->tv_sec < 0 || timeout->tv_nsec < 0 || timeout->tv_nsec >= 1000000000))
        return (int)fail_with(EINVAL);
    if (!call_begin(&call, MAY_WAIT))
        return -1;
    if (timeout)
        set_deadline(&call, timeout);
    if (timeout && !must_not_wait(&call))
        call_say(&call, "semtimedop %u %llu", (unsigned)id, (unsigned long long)call.timeout);
    else
        call_say(&call, "semop %u", (unsigned)id);
    bool never_waits = say_operations(&call, operations, count);
    call_make(&call);
    if (call.error == EAGAIN && must_not_wait(&call) && !never_waits)
        refuse_to_wait(&call);
    return (int)call_end(&call, 0);
}

FOR_PROGRAMS int semop(int id, struct sembuf *operations, size_t count)
{
    return semtimedop(id, operations, count, NULL);
}

static int stat_set(int id, struct semid_ds *status)
{
    struct call call;
    if (!call_begin(&call, NEVER_WAITS))
        return -1;
    call_say(&call, "stat s %u", (unsigned)id);
    const char *row = call_make(&call);
    if (row) {
        memset(status, 0, sizeof *status);
        perm_of(row, id, &status->sem_perm);
        status->sem_otime = time_of(row, "otime");
        status->sem_ctime = time_of(row, "ctime");
        status->sem_nsems = field_of(row, "nsems", 10);
    }
    return (int)call_end(&call, 0);
}

static int set_set(int id, const struct semid_ds *with)
{
    if (with->sem_perm.uid == (uid_t)-1 || with->sem_perm.gid == (gid_t)-1)
        return (int)fail_with(EINVAL);
    return (int)simple_call("set s %u %u %u 0%o", (unsigned)id, with->sem_perm.uid, with->sem_perm.gid, with->sem_perm.mode);
}

/* `values N N ..` */
static int get_values(int id, unsigned short *values)
{
    struct call call;
    if (!call_begin(&call, NEVER_WAITS))
        return -1;
    call_say(&call, "getall %u", (unsigned)id);
    const char *row = call_make(&call);
    const char *at = row ? after(&call, row, "values") : NULL;
    for (char *next; at && *at == ' '; at = next)
        *values++ = (unsigned short)strtoul(at, &next, 10);
    return (int)call_end(&call, 0);
}

/* The array has no length: the set has. Whoever may alter it and not read it isn't told, but made it or has got it by this process. */
static int set_values(int id, const unsigned short *values)
{
    struct call call;
    if (!call_begin(&call, NEVER_WAITS))
        return -1;
    const char *row = call_line(&call, "stat s %u", (unsigned)id);
    size_t count = row ? field_of(row, "nsems", 10) : size_of(SET, id);
    text_clear(&call.client->line);
    call_say(&call, "%s setall %u", name_of(call.client), (unsigned)id);
    for (size_t at = 0; at < count; at++)
        call_say(&call, " %u", values[at]);
    call_make(&call);
    if (call.error == ENOSYS)
        complain("SETALL of %zu values is longer than a line of the script", count);
    return (int)call_end(&call, 0);
}

static int get_pid(int id, int number)
{
    long client = simple_call("getpid %u %u", (unsigned)id, (unsigned)number);
    return client > 0 ? getpid() : (int)client;
}

static int control(int id, int number, int command, union semun with)
{
    switch (command) {
    case GETVAL:
        return (int)simple_call("getval %u %u", (unsigned)id, (unsigned)number);
    case GETPID:
        return get_pid(id, number);
    case GETNCNT:
        return (int)simple_call("getncnt %u %u", (unsigned)id, (unsigned)number);
    case GETZCNT:
        return (int)simple_call("getzcnt %u %u", (unsigned)id, (unsigned)number);
    case SETVAL:
        return (int)simple_call("setval %u %u %d", (unsigned)id, (unsigned)number, with.val);
    case IPC_RMID:
        return (int)simple_call("rmid s %u", (unsigned)id);
    case IPC_SET:
        return set_set(id, with.buf);
    case IPC_STAT:
        return stat_set(id, with.buf);
    case GETALL:
        return get_values(id, with.array);
    default:
        return set_values(id, with.array);
    }
}

FOR_PROGRAMS int semctl(int id, int number, int command, ...)
{
    union semun with = {0};
    va_list list;
    va_start(list, command);
    switch (command) {
    case SETVAL:
    case IPC_SET:
    case IPC_STAT:
    case GETALL:
    case SETALL:
        with = va_arg(list, union semun);
        break;
    }
    va_end(list);
    switch (command) {
    case IPC_INFO:
    case SEM_INFO:
    case SEM_STAT:
    case SEM_STAT_ANY:
        return (int)fail_with(ENOSYS);
    case IPC_SET:
    case IPC_STAT:
    case GETALL:
    case SETALL:
        return with.buf ? control(id, number, command, with) : (int)fail_with(EFAULT);
    case GETVAL:
    case GETPID:
    case GETNCNT:
    case GETZCNT:
    case SETVAL:
    case IPC_RMID:
        return control(id, number, command, with);
    default:
        return (int)fail_with(EINVAL);
    }
}
