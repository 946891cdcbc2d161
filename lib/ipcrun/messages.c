/* Message queues: msgget(2), msgop(2), msgctl(2). */
#define _GNU_SOURCE
#include "ipcrun.h"

#include <errno.h>
#include <limits.h>
#include <stdlib.h>
#include <string.h>
#include <sys/msg.h>

FOR_PROGRAMS int msgget(key_t key, int flags)
{
    return (int)simple_call("msgget %u 0%o", (unsigned)key, (unsigned)flags);
}

/* The flags of a call, for which no client may be left to wait. */
static unsigned flags_of(const struct call *call, int flags)
{
    return (unsigned)flags | (must_not_wait(call) ? IPC_NOWAIT : 0);
}

static void refuse_wait(struct call *call, int flags, int error)
{
    if (call->error == error && must_not_wait(call) && !(flags & IPC_NOWAIT))
        refuse_to_wait(call);
}

FOR_PROGRAMS int msgsnd(int id, const void *message, size_t size, int flags)
{
    struct call call;
    long type;
    if (size > MSGMAX_BYTES)
        return (int)fail_with(EINVAL);
    if (!message)
        return (int)fail_with(EFAULT);
    if (!call_begin(&call, MAY_WAIT))
        return -1;
    call.may_be_cancelled = true;
    memcpy(&type, message, sizeof type);
    call_say(&call, "msgsnd %u %ld ", (unsigned)id, type);
    text_bytes(&call.client->line, (const unsigned char *)message + sizeof type, size);
    call_say(&call, " 0%o", flags_of(&call, flags));
    call_make(&call);
    refuse_wait(&call, flags, EAGAIN);
    return (int)call_end(&call, 0);
}

/* `message TYPE x:HEX`, into a message of at most so many bytes. */
static long take_message(struct call *call, const char *row, void *message, size_t most)
{
    char *end;
    const char *number = after(call, row, "message ");
    long type = number ? strtol(number, &end, 10) : 0;
    const char *hex = number ? after(call, end, " x:") : NULL;
    if (!hex)
        return -1;
    memcpy(message, &type, sizeof type);
    return (long)bytes_of_hex(hex, (unsigned char *)message + sizeof type, most);
}

FOR_PROGRAMS ssize_t msgrcv(int id, void *message, size_t size, long type, int flags)
{
    struct call call;
    if (size > SSIZE_MAX)
        return fail_with(EINVAL);
    if (flags & MSG_COPY)
        return fail_with(ENOSYS);
    if (!message)
        return fail_with(EFAULT);
    if (!call_begin(&call, MAY_WAIT))
        return -1;
    call.may_be_cancelled = true;
    call_say(&call, "msgrcv %u %zu %ld 0%o", (unsigned)id, size, type, flags_of(&call, flags));
    const char *row = call_make(&call);
    refuse_wait(&call, flags, ENOMSG);
    long length = row ? take_message(&call, row, message, size) : -1;
    return call_end(&call, length);
}

static int set_queue(int id, const struct msqid_ds *with)
{
    if (with->msg_perm.uid == (uid_t)-1 || with->msg_perm.gid == (gid_t)-1)
        return (int)fail_with(EINVAL);
    return (int)simple_call("set q %u %u %u 0%o %lu", (unsigned)id, with->msg_perm.uid, with->msg_perm.gid, with->msg_perm.mode,
                            (unsigned long)with->msg_qbytes);
}

static int stat_queue(int id, struct msqid_ds *status)
{
    struct call call;
    if (!call_begin(&call, NEVER_WAITS))
        return -1;
    call_say(&call, "stat q %u", (unsigned)id);
    const char *row = call_make(&call);
    if (row) {
        memset(status, 0, sizeof *status);
        perm_of(row, id, &status->msg_perm);
        status->msg_stime = time_of(row, "stime");
        status->msg_rtime = time_of(row, "rtime");
        status->msg_ctime = time_of(row, "ctime");
        status->__msg_cbytes = field_of(row, "cbytes", 10);
        status->msg_qnum = field_of(row, "qnum", 10);
        status->msg_qbytes = field_of(row, "qbytes", 10);
        status->msg_lspid = pid_of(row, "lspid");
        status->msg_lrpid = pid_of(row, "lrpid");
    }
    return (int)call_end(&call, 0);
}

FOR_PROGRAMS int msgctl(int id, int command, struct msqid_ds *status)
{
    switch (command) {
    case IPC_RMID:
        return (int)simple_call("rmid q %u", (unsigned)id);
    case IPC_SET:
        return status ? set_queue(id, status) : (int)fail_with(EFAULT);
    case IPC_STAT:
        return status ? stat_queue(id, status) : (int)fail_with(EFAULT);
    case IPC_INFO:
    case MSG_INFO:
    case MSG_STAT:
    case MSG_STAT_ANY:
        return (int)fail_with(ENOSYS);
    default:
        return (int)fail_with(EINVAL);
    }
}
