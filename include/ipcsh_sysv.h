/*
 * The usual prototypes over ipcsh.h: a program whose threads call msgget, semop and their kin includes this in place of <sys/ipc.h>, <sys/msg.h>,
 * <sys/sem.h> and <sys/shm.h>, and says of each thread by ipcsh_use as which client it calls. Types, constants and ftok are those of the
 * system's headers. A call returns -1 and sets errno where it is refused (docs/C.md, man ipcsh.3).
 *
 *   int queue = msgget(5, IPC_CREAT | 0600);        after ipcsh_use(handle)
 *
 * Left out, so that a program which uses it isn't compiled: shmat and shmdt, as the library has no memory that a pointer could lead to, but
 * copies bytes by ipcsh_shmread and ipcsh_shmwrite; and semtimedop, as it has no timer: ipcsh_semtimedop waits until another call passes the time.
 */
#ifndef IPCSH_SYSV_H
#define IPCSH_SYSV_H

#include "ipcsh.h"

#include <errno.h>
#include <stdarg.h>
#include <stddef.h>
#include <sys/ipc.h>
#include <sys/msg.h>
#include <sys/sem.h>
#include <sys/shm.h>
#include <sys/types.h>
#include <time.h>

#ifdef __cplusplus
extern "C" {
#endif

/* As which client this thread calls. All files of a program that include this share it. */
__attribute__((weak)) __thread ipcsh *ipcsh_used;

/* From now on this thread calls by the handle; NULL: by none. It returns the handle by which the thread called before. */
static inline ipcsh *ipcsh_use(ipcsh *handle)
{
    ipcsh *before = ipcsh_used;
    ipcsh_used = handle;
    return before;
}

/* The time of a call: that of time(2). */
static inline uint64_t ipcsh_sysv_clock(void)
{
    return (uint64_t)time(0);
}

/* -1, with errno set. */
static inline int ipcsh_sysv_fail(int error)
{
    errno = error;
    return -1;
}

/* What a call by name returned, as the kernel's return: 0, or -1 with errno. ENOSYS: the thread calls by no handle. */
static inline int ipcsh_sysv_end(int code)
{
    if (!code)
        return 0;
    if (code > 0)
        return ipcsh_sysv_fail(code);
    if (!ipcsh_used)
        return ipcsh_sysv_fail(ENOSYS);
    switch (code) {
    case IPCSH_NO_MEMORY:
        return ipcsh_sysv_fail(ENOMEM);
    case IPCSH_NULL:
        return ipcsh_sysv_fail(EFAULT);
    case IPCSH_BUSY:
    case IPCSH_UNTAKEN:
        return ipcsh_sysv_fail(EBUSY);
    default:
        return ipcsh_sysv_fail(EINVAL);
    }
}

/* The same of a call that answers a number. */
static inline int ipcsh_sysv_number(int code, uint32_t value)
{
    return code ? ipcsh_sysv_end(code) : (int)value;
}

static inline int ipcsh_sysv_rmid(enum ipcsh_kind kind, int id)
{
    struct ipcsh_reply reply;
    return ipcsh_sysv_end(ipcsh_rmid(ipcsh_used, ipcsh_sysv_clock(), kind, (uint32_t)id, &reply));
}

/* IPC_SET. Linux takes no user and no group of the number -1. */
static inline int ipcsh_sysv_set(enum ipcsh_kind kind, int id, const struct ipc_perm *perm, const uint64_t *qbytes)
{
    struct ipcsh_reply reply;
    if (perm->uid == (uid_t)-1 || perm->gid == (gid_t)-1)
        return ipcsh_sysv_fail(EINVAL);
    return ipcsh_sysv_end(ipcsh_set(ipcsh_used, ipcsh_sysv_clock(), kind, (uint32_t)id, perm->uid, perm->gid, perm->mode, qbytes, &reply));
}

/* IPC_STAT. */
static inline int ipcsh_sysv_stat(enum ipcsh_kind kind, int id, struct ipcsh_object *object)
{
    struct ipcsh_reply reply;
    return ipcsh_sysv_end(ipcsh_stat(ipcsh_used, ipcsh_sysv_clock(), kind, (uint32_t)id, object, &reply));
}

/* The permissions in the status of an object. A segment that is marked has SHM_DEST in its mode. */
static inline void ipcsh_sysv_perm(const struct ipcsh_object *object, int id, struct ipc_perm *perm)
{
    enum { SLOTS = 32768, DEST = 01000 };
    memset(perm, 0, sizeof *perm);
    perm->uid = object->uid;
    perm->gid = object->gid;
    perm->cuid = object->cuid;
    perm->cgid = object->cgid;
    perm->mode = (unsigned short)(object->mode | (object->marked ? DEST : 0));
#ifdef __GLIBC__
    perm->__key = (key_t)object->key;
    perm->__seq = (unsigned short)(id / SLOTS);
#else
    (void)id;
#endif
}

/* msgget(2) */
static inline int ipcsh_sysv_msgget(key_t key, int flags)
{
    struct ipcsh_reply reply;
    uint32_t value = 0;
    int code = ipcsh_msgget(ipcsh_used, ipcsh_sysv_clock(), (uint32_t)key, (uint32_t)flags, &reply, &value);
    return ipcsh_sysv_number(code, value);
}

/* msgsnd of msgop(2) */
static inline int ipcsh_sysv_msgsnd(int id, const void *message, size_t size, int flags)
{
    struct ipcsh_reply reply;
    long type;
    if (!message)
        return ipcsh_sysv_end(IPCSH_NULL);
    if (size > SIZE_MAX / 2)
        return ipcsh_sysv_fail(EINVAL);
    memcpy(&type, message, sizeof type);
    return ipcsh_sysv_end(
        ipcsh_msgsnd(ipcsh_used, ipcsh_sysv_clock(), (uint32_t)id, type, (const char *)message + sizeof type, size, (uint32_t)flags, &reply));
}

/* msgrcv of msgop(2). MSG_COPY is ENOSYS, as on a kernel that was built without it. */
static inline ssize_t ipcsh_sysv_msgrcv(int id, void *message, size_t size, long type, int flags)
{
    enum { COPY = 040000 };
    struct ipcsh_reply reply;
    int code;
    if (!message)
        return ipcsh_sysv_end(IPCSH_NULL);
    if (size > SIZE_MAX / 2)
        return ipcsh_sysv_fail(EINVAL);
    if (flags & COPY)
        return ipcsh_sysv_fail(ENOSYS);
    code = ipcsh_msgrcv(ipcsh_used, ipcsh_sysv_clock(), (uint32_t)id, (char *)message + sizeof(long), size, type, (uint32_t)flags, &reply);
    if (code)
        return ipcsh_sysv_end(code);
    type = (long)reply.mtype;
    memcpy(message, &type, sizeof type);
    return (ssize_t)reply.len;
}

static inline int ipcsh_sysv_stat_queue(int id, struct msqid_ds *status)
{
    struct ipcsh_object object;
    if (ipcsh_sysv_stat(IPCSH_QUEUE, id, &object))
        return -1;
    memset(status, 0, sizeof *status);
    ipcsh_sysv_perm(&object, id, &status->msg_perm);
    status->msg_stime = (time_t)object.stime;
    status->msg_rtime = (time_t)object.rtime;
    status->msg_ctime = (time_t)object.ctime;
    status->__msg_cbytes = (unsigned long)object.bytes;
    status->msg_qnum = (msgqnum_t)object.count;
    status->msg_qbytes = (msglen_t)object.qbytes;
    status->msg_lspid = (pid_t)object.lspid;
    status->msg_lrpid = (pid_t)object.lrpid;
    return 0;
}

/* msgctl(2). IPC_INFO, MSG_INFO, MSG_STAT and MSG_STAT_ANY are EINVAL, as commands that there aren't. */
static inline int ipcsh_sysv_msgctl(int id, int command, struct msqid_ds *status)
{
    uint64_t qbytes;
    if (command == IPC_RMID)
        return ipcsh_sysv_rmid(IPCSH_QUEUE, id);
    if (command != IPC_STAT && command != IPC_SET)
        return ipcsh_sysv_fail(EINVAL);
    if (!status)
        return ipcsh_sysv_end(IPCSH_NULL);
    if (command == IPC_STAT)
        return ipcsh_sysv_stat_queue(id, status);
    qbytes = status->msg_qbytes;
    return ipcsh_sysv_set(IPCSH_QUEUE, id, &status->msg_perm, &qbytes);
}

/* semget(2) */
static inline int ipcsh_sysv_semget(key_t key, int count, int flags)
{
    struct ipcsh_reply reply;
    uint32_t value = 0;
    int code = ipcsh_semget(ipcsh_used, ipcsh_sysv_clock(), (uint32_t)key, (uint32_t)count, (uint32_t)flags, &reply, &value);
    return ipcsh_sysv_number(code, value);
}

/* The operations of semop(2) lie as those of the library, else this isn't compiled. */
#define IPCSH_SYSV_LIES_AS(of, library) (offsetof(struct sembuf, of) == offsetof(struct ipcsh_semop, library))
typedef char ipcsh_sysv_sembuf[sizeof(struct sembuf) == sizeof(struct ipcsh_semop) && IPCSH_SYSV_LIES_AS(sem_num, num) &&
                                       IPCSH_SYSV_LIES_AS(sem_op, op) && IPCSH_SYSV_LIES_AS(sem_flg, flags)
                                   ? 1
                                   : -1];
#undef IPCSH_SYSV_LIES_AS

/* semop(2) */
static inline int ipcsh_sysv_semop(int id, struct sembuf *operations, size_t count)
{
    struct ipcsh_reply reply;
    const void *lists = operations;
    return ipcsh_sysv_end(ipcsh_semop(ipcsh_used, ipcsh_sysv_clock(), (uint32_t)id, (const struct ipcsh_semop *)lists, count, &reply));
}

/* The fourth argument of semctl(2), whose type a program declares itself. */
union ipcsh_sysv_semun {
    int val;
    struct semid_ds *buf;
    unsigned short *array;
};

/* GETVAL, GETPID, GETNCNT and GETZCNT, each by the library's function of this name. */
typedef int ipcsh_sysv_getter(ipcsh *, uint64_t, uint32_t, uint32_t, struct ipcsh_reply *, uint32_t *);

static inline int ipcsh_sysv_getnum(ipcsh_sysv_getter *get, int id, int number)
{
    struct ipcsh_reply reply;
    uint32_t value = 0;
    int code = get(ipcsh_used, ipcsh_sysv_clock(), (uint32_t)id, (uint32_t)number, &reply, &value);
    return ipcsh_sysv_number(code, value);
}

static inline int ipcsh_sysv_setval(int id, int number, int value)
{
    struct ipcsh_reply reply;
    return ipcsh_sysv_end(ipcsh_setval(ipcsh_used, ipcsh_sysv_clock(), (uint32_t)id, (uint32_t)number, value, &reply));
}

/* GETALL. The array has no length: the reply has, and stays until there is room for it. */
static inline int ipcsh_sysv_getall(int id, unsigned short *values)
{
    struct ipcsh_reply reply;
    struct ipcsh_room room = { 0, 0, 0, 0, 0, 0 };
    int code = ipcsh_getall(ipcsh_used, ipcsh_sysv_clock(), (uint32_t)id, 0, 0, &reply);
    if (code != IPCSH_NO_ROOM)
        return ipcsh_sysv_end(code);
    room.values = values;
    room.values_len = (size_t)reply.len;
    return ipcsh_sysv_end(ipcsh_wait(ipcsh_used, &reply, &room));
}

/*
 * SETALL. The array has no length, and the set has, which IPC_STAT tells who may read it. Who may alter it alone asks with one value more each
 * time: the library refuses another number than the set's by a rule of its own, after all others.
 */
static inline int ipcsh_sysv_setall(int id, const unsigned short *values)
{
    struct ipcsh_object object;
    struct ipcsh_reply reply;
    size_t count = ipcsh_stat(ipcsh_used, ipcsh_sysv_clock(), IPCSH_SEMS, (uint32_t)id, &object, &reply) ? 1 : (size_t)object.count;
    int code;
    while ((code = ipcsh_setall(ipcsh_used, ipcsh_sysv_clock(), (uint32_t)id, values, count, &reply)) > 0 &&
           !strcmp(ipcsh_rule_name(reply.rule), "bad-size"))
        count++;
    return ipcsh_sysv_end(code);
}

static inline int ipcsh_sysv_stat_set(int id, struct semid_ds *status)
{
    struct ipcsh_object object;
    if (ipcsh_sysv_stat(IPCSH_SEMS, id, &object))
        return -1;
    memset(status, 0, sizeof *status);
    ipcsh_sysv_perm(&object, id, &status->sem_perm);
    status->sem_otime = (time_t)object.otime;
    status->sem_ctime = (time_t)object.ctime;
    status->sem_nsems = (unsigned long)object.count;
    return 0;
}

/* The commands of semctl(2) that take a pointer. */
static inline int ipcsh_sysv_semctl_at(int id, int command, union ipcsh_sysv_semun with)
{
    if (!with.buf)
        return ipcsh_sysv_end(IPCSH_NULL);
    switch (command) {
    case GETALL:
        return ipcsh_sysv_getall(id, with.array);
    case SETALL:
        return ipcsh_sysv_setall(id, with.array);
    case IPC_STAT:
        return ipcsh_sysv_stat_set(id, with.buf);
    default:
        return ipcsh_sysv_set(IPCSH_SEMS, id, &with.buf->sem_perm, 0);
    }
}

/* semctl(2). IPC_INFO, SEM_INFO, SEM_STAT and SEM_STAT_ANY are EINVAL, as commands that there aren't. */
static inline int ipcsh_sysv_semctl(int id, int number, int command, ...)
{
    union ipcsh_sysv_semun with;
    va_list list;
    switch (command) {
    case IPC_RMID:
        return ipcsh_sysv_rmid(IPCSH_SEMS, id);
    case GETVAL:
        return ipcsh_sysv_getnum(ipcsh_getval, id, number);
    case GETPID:
        return ipcsh_sysv_getnum(ipcsh_getpid, id, number);
    case GETNCNT:
        return ipcsh_sysv_getnum(ipcsh_getncnt, id, number);
    case GETZCNT:
        return ipcsh_sysv_getnum(ipcsh_getzcnt, id, number);
    case SETVAL:
    case GETALL:
    case SETALL:
    case IPC_STAT:
    case IPC_SET:
        va_start(list, command);
        with = va_arg(list, union ipcsh_sysv_semun);
        va_end(list);
        return command == SETVAL ? ipcsh_sysv_setval(id, number, with.val) : ipcsh_sysv_semctl_at(id, command, with);
    default:
        return ipcsh_sysv_fail(EINVAL);
    }
}

/* shmget(2) */
static inline int ipcsh_sysv_shmget(key_t key, size_t size, int flags)
{
    struct ipcsh_reply reply;
    uint32_t value = 0;
    int code = ipcsh_shmget(ipcsh_used, ipcsh_sysv_clock(), (uint32_t)key, size, (uint32_t)flags, &reply, &value);
    return ipcsh_sysv_number(code, value);
}

static inline int ipcsh_sysv_stat_segment(int id, struct shmid_ds *status)
{
    struct ipcsh_object object;
    if (ipcsh_sysv_stat(IPCSH_SEGMENT, id, &object))
        return -1;
    memset(status, 0, sizeof *status);
    ipcsh_sysv_perm(&object, id, &status->shm_perm);
    status->shm_segsz = (size_t)object.bytes;
    status->shm_atime = (time_t)object.atime;
    status->shm_dtime = (time_t)object.dtime;
    status->shm_ctime = (time_t)object.ctime;
    status->shm_cpid = (pid_t)object.cpid;
    status->shm_lpid = (pid_t)object.lpid;
    status->shm_nattch = (shmatt_t)object.count;
    return 0;
}

/* shmctl(2). IPC_INFO, SHM_INFO, SHM_STAT, SHM_STAT_ANY, SHM_LOCK and SHM_UNLOCK are EINVAL, as commands that there aren't. */
static inline int ipcsh_sysv_shmctl(int id, int command, struct shmid_ds *status)
{
    if (command == IPC_RMID)
        return ipcsh_sysv_rmid(IPCSH_SEGMENT, id);
    if (command != IPC_STAT && command != IPC_SET)
        return ipcsh_sysv_fail(EINVAL);
    if (!status)
        return ipcsh_sysv_end(IPCSH_NULL);
    if (command == IPC_STAT)
        return ipcsh_sysv_stat_segment(id, status);
    return ipcsh_sysv_set(IPCSH_SEGMENT, id, &status->shm_perm, 0);
}

#define msgget ipcsh_sysv_msgget
#define msgsnd ipcsh_sysv_msgsnd
#define msgrcv ipcsh_sysv_msgrcv
#define msgctl ipcsh_sysv_msgctl
#define semget ipcsh_sysv_semget
#define semop ipcsh_sysv_semop
#define semctl ipcsh_sysv_semctl
#define shmget ipcsh_sysv_shmget
#define shmctl ipcsh_sysv_shmctl

/* What is left out is no expression. */
#define shmat ((struct ipcsh_has_no_shmat)0)
#define shmdt ((struct ipcsh_has_no_shmdt)0)
#define semtimedop ((struct ipcsh_has_no_semtimedop)0)

#ifdef __cplusplus
}
#endif

#endif
