/*
 * The calls of System V IPC, served in this process by proved code (docs/C.md). No call here reaches the kernel's objects, and no lock is
 * taken: whichever thread finds posted calls serves those of all.
 *
 *   cc program.c out/c/libipcsh.a        after ./build c
 *
 * A handle stands for a client, as a process would call: its credentials are given as the service is opened. One thread at a time may use a
 * handle, and it may go from thread to thread where a lock, a thread's start or its join comes between. Handles of one service may be used at
 * once by as many threads as there are. A handle that was closed may not be used.
 *
 * What a function returns: IPCSH_OK and 0; above 0 for how far a call is, or of a call by name the number of its error (errno(3)); below 0
 * where the library didn't do what was asked. Nothing is lost then, and nothing has changed, but as IPCSH_NO_ROOM says.
 */
#ifndef IPCSH_H
#define IPCSH_H

#include <sched.h>
#include <stddef.h>
#include <stdint.h>
#include <string.h>
#include <sys/select.h>

#ifdef __cplusplus
extern "C" {
#endif

/* Why nothing was done, each with its text, which ipcsh_strerror gives. */
#define IPCSH_EACH_FAULT(it) \
    it(IPCSH_BUSY, -1, "the handle's call is in flight or waits") \
    it(IPCSH_UNTAKEN, -2, "the reply to the handle's call isn't taken") \
    it(IPCSH_NO_CALL, -3, "the handle has no call") \
    it(IPCSH_UNKNOWN, -5, "a request with the code of no operation, or of no kind of objects") \
    it(IPCSH_NO_ROOM, -6, "the lists of the reply don't fit; its numbers are given, `len` among them, and it can still be taken") \
    it(IPCSH_NO_MEMORY, -7, "an allocation fails") \
    it(IPCSH_BAD_LIMITS, -8, "a limit isn't in its range") \
    it(IPCSH_BAD_CLIENTS, -9, "there are no clients or more than 64, or one has more than 32 groups, or capabilities that there aren't") \
    it(IPCSH_NULL, -10, "a null pointer") \
    it(IPCSH_COMBINING, -11, "another handle combines, or reads the journal; ask again") \
    it(IPCSH_NO_JOURNAL, -12, "the handle reads no journal")

#define IPCSH_NAMED(name, number, text) name = number,
enum {
    IPCSH_EACH_FAULT(IPCSH_NAMED)
    IPCSH_OK = 0,
    /* Of ipcsh_advance: */
    IPCSH_IN_FLIGHT = 1, /* the call is posted, and not served yet */
    IPCSH_WAITING = 2    /* the call is served, and waits as msgop(2) and semop(2) say */
};
#undef IPCSH_NAMED

/*
 * What a number means that a function returned: a text for each of those below 0, and else that of strerror(3). IPCSH_IN_FLIGHT and IPCSH_WAITING
 * are no errors, and have the numbers of two.
 */
static inline const char *ipcsh_strerror(int code)
{
#define IPCSH_TOLD(name, number, text) \
    case number: \
        return text;
    switch (code) {
        IPCSH_EACH_FAULT(IPCSH_TOLD)
    default:
        return strerror(code);
    }
#undef IPCSH_TOLD
}

enum ipcsh_op {
    IPCSH_MSGGET, IPCSH_MSGSND, IPCSH_MSGRCV,
    IPCSH_SEMGET, IPCSH_SEMOP, IPCSH_SEMTIMEDOP,
    IPCSH_GETVAL, IPCSH_GETPID, IPCSH_GETNCNT, IPCSH_GETZCNT, IPCSH_GETALL, IPCSH_SETVAL, IPCSH_SETALL,
    IPCSH_SHMGET, IPCSH_SHMAT, IPCSH_SHMDT, IPCSH_SHMREAD, IPCSH_SHMWRITE,
    IPCSH_STAT, IPCSH_SET, IPCSH_RMID, IPCSH_LISTING, IPCSH_INTERRUPT, IPCSH_SETCREDS, IPCSH_EXIT,
    IPCSH_INTERRUPT_THREAD, IPCSH_KILL, IPCSH_ASSUME, IPCSH_BEGIN, IPCSH_FORK, IPCSH_CLONE, IPCSH_NAME, IPCSH_EXEC
};

enum ipcsh_kind { IPCSH_QUEUE, IPCSH_SEMS, IPCSH_SEGMENT };

/* The sort of an answer; 0 where there is none. */
enum ipcsh_answer {
    IPCSH_ANSWER_ID = 1, IPCSH_ANSWER_DONE, IPCSH_ANSWER_MESSAGE, IPCSH_ANSWER_STATUS, IPCSH_ANSWER_VALUE, IPCSH_ANSWER_VALUES,
    IPCSH_ANSWER_ATTACHED, IPCSH_ANSWER_BYTES, IPCSH_ANSWER_OBJECTS
};

/* Flags and modes are those of the kernel's headers. */
enum {
    IPCSH_CREAT = 01000, IPCSH_EXCL = 02000, IPCSH_NOWAIT = 04000,
    IPCSH_MSG_NOERROR = 010000, IPCSH_MSG_EXCEPT = 020000, IPCSH_SEM_UNDO = 010000, IPCSH_SHM_RDONLY = 010000
};

/* Capabilities of a client. */
enum { IPCSH_IPC_OWNER = 1, IPCSH_SYS_ADMIN = 2, IPCSH_SYS_RESOURCE = 4, IPCSH_SETUID = 8, IPCSH_SETGID = 16 };

typedef struct ipcsh ipcsh; /* a handle; never looked into */

/* Ranges: docs/PROFILE.md. */
struct ipcsh_limits {
    uint32_t queues, sets, segments; /* how many objects of each kind there may be */
    uint32_t msgmax, msgmnb, semmsl, semopm, shmmax;
    uint32_t first_seq; /* its low 16 bits count */
    uint32_t journal;   /* not 0: the service keeps its journal until it is read, as by ipcsh_open_with_journal */
};
#define IPCSH_DEFAULT_LIMITS { 128, 128, 128, 8192, 16384, 32000, 500, 33554432, 0, 0 }

struct ipcsh_client {
    uint32_t uid, gid; /* the effective ones, and the real and the saved ones too */
    uint32_t caps;     /* IPCSH_IPC_OWNER and the others, added */
    uint32_t ngroups;  /* how many of the groups count, 32 at most */
    uint32_t groups[32];
};

/* One operation of semop. */
struct ipcsh_semop {
    uint16_t num;
    int16_t op;
    uint16_t flags;
};

/* A call's numbers. docs/C.md has the table of what each operation uses. */
struct ipcsh_request {
    uint64_t clock;   /* the caller's time in seconds */
    uint64_t size, offset, timeout;
    int64_t mtype;
    uint32_t op, kind, id, key, flags, num;
    int32_t value;
    uint32_t uid, gid, mode;
    uint32_t more;    /* not 0: `size` is the msg_qbytes of IPC_SET, and setcreds sets supplementary groups */
    uint32_t ruid, rgid, suid, sgid; /* the real and the saved ids of begin and assume */
    uint8_t caps;     /* their capabilities */
};

/* A reply's numbers. */
struct ipcsh_reply {
    uint64_t place;  /* the number of the event that ended the call, from 1 */
    int64_t mtype;   /* of the message that was received */
    uint64_t len;    /* how many bytes, values or objects there are */
    uint32_t turn;   /* 0 for that event's own call, and then counts the waiting calls that it ended */
    uint32_t error;  /* the number of the error (errno(3)), 0 where the call was granted */
    uint32_t rule;   /* the code of the rule that refused it; ipcsh_rule_name names it */
    uint32_t answer; /* enum ipcsh_answer */
    uint32_t value;  /* the identifier, the value, or the number of the attachment */
};

/* What msqid_ds, semid_ds or shmid_ds have of an object. What its kind doesn't have, or a listing doesn't show, is 0. */
struct ipcsh_object {
    uint64_t bytes;  /* of a queue's texts; a segment's size */
    uint64_t count;  /* messages; semaphores; attachments */
    uint64_t qbytes; /* the most bytes that a queue may hold */
    uint64_t stime, rtime, otime, atime, dtime, ctime;
    uint32_t kind, id, key, uid, gid, cuid, cgid, mode;
    uint32_t lspid, lrpid, cpid, lpid;
    uint32_t marked; /* 1: a segment that goes with its last attachment */
};

/* The lists that a call takes. What a call doesn't use may be NULL and 0. */
struct ipcsh_lists {
    const void *text;                /* of a message, or the bytes that are written */
    size_t text_len;
    const struct ipcsh_semop *ops;
    size_t ops_len;
    const uint16_t *values;          /* of SETALL */
    size_t values_len;
    const uint32_t *groups;          /* of setcreds, begin and assume */
    size_t groups_len;
};

/* Where the lists of a reply go. What an answer doesn't have may be NULL and 0. */
struct ipcsh_room {
    void *bytes;                     /* a text, or bytes that are read */
    size_t bytes_len;
    uint16_t *values;                /* of GETALL */
    size_t values_len;
    struct ipcsh_object *objects;    /* of IPC_STAT and of a listing */
    size_t objects_len;
};

/* The exports. The functions below test for null pointers, and are what a program calls. */
int32_t ipcsh_raw_open(const struct ipcsh_limits *, const struct ipcsh_client *, size_t, ipcsh **, size_t);
int32_t ipcsh_raw_post(ipcsh *, const struct ipcsh_request *, const void *, size_t, const struct ipcsh_semop *, size_t, const uint16_t *, size_t,
                       const uint32_t *, size_t);
int32_t ipcsh_raw_ask(ipcsh *, const struct ipcsh_request *);
int32_t ipcsh_raw_advance(ipcsh *, struct ipcsh_reply *, void *, size_t, uint16_t *, size_t, struct ipcsh_object *, size_t);
int32_t ipcsh_raw_read_journal(ipcsh *, uint64_t *, void *, size_t);
int32_t ipcsh_raw_close(ipcsh *);

/* The way of a call: inlined, it costs few of the tests on it, since a call by name gives most of their operands as constants. */
#if defined(__GNUC__)
#define IPCSH_INLINE static inline __attribute__((always_inline))
#else
#define IPCSH_INLINE static inline
#endif

/* A slice of no elements has an address too. */
static inline uint64_t *ipcsh_nowhere(void)
{
    static uint64_t word;
    return &word;
}
#define IPCSH_SOME(pointer, type) ((pointer) ? (pointer) : (type *)ipcsh_nowhere())

/* No room where there is a null pointer. */
IPCSH_INLINE const struct ipcsh_room *ipcsh_room_of(const struct ipcsh_room *room)
{
    static const struct ipcsh_room none = { 0, 0, 0, 0, 0, 0 };
    return room ? room : &none;
}

/* Whether each place for a list that isn't empty has an address. */
IPCSH_INLINE int ipcsh_has_room(const struct ipcsh_room *room)
{
    return (room->bytes || !room->bytes_len) && (room->values || !room->values_len) && (room->objects || !room->objects_len);
}

/*
 * Opens a service for n clients, 1 to 64, and writes a handle for each to `handles`, in their order. Each is to be closed. It keeps no journal: a
 * call leaves nothing in memory but what it made, as a message, a waiting call, an object or an attachment.
 * IPCSH_BAD_LIMITS, IPCSH_BAD_CLIENTS, IPCSH_NO_MEMORY: there is no service, and each of `handles` is NULL. IPCSH_NULL: `handles` is as it was.
 */
static inline int ipcsh_open(const struct ipcsh_limits *limits, const struct ipcsh_client *clients, size_t n, ipcsh **handles)
{
    if (!limits || !clients || !handles)
        return IPCSH_NULL;
    memset(handles, 0, n * sizeof *handles);
    return ipcsh_raw_open(limits, clients, n, handles, n);
}

/*
 * The same, and the service keeps its journal, some 130 bytes a call and its text, until the first handle reads it by ipcsh_read_journal.
 */
static inline int ipcsh_open_with_journal(const struct ipcsh_limits *limits, const struct ipcsh_client *clients, size_t n, ipcsh **handles)
{
    struct ipcsh_limits with;
    if (!limits)
        return IPCSH_NULL;
    with = *limits;
    with.journal = 1;
    return ipcsh_open(&with, clients, n, handles);
}

/*
 * Reads on in the text of the journal, by the first handle of a service that keeps one: at most `size` bytes, each of the text once, and `len` says
 * how many. 0 bytes: there is no more as yet. All that is read, one behind another, is a journal that ./ipcsh_journal --replay checks. The
 * thread gives up the processor while another handle combines. IPCSH_NO_JOURNAL, IPCSH_BUSY, IPCSH_NO_MEMORY, IPCSH_NULL: nothing is read or lost.
 */
static inline int ipcsh_read_journal(ipcsh *handle, void *bytes, size_t size, size_t *len)
{
    uint64_t count = 0;
    int code;
    if (!handle || !len || (!bytes && size))
        return IPCSH_NULL;
    while ((code = ipcsh_raw_read_journal(handle, &count, IPCSH_SOME(bytes, void), size)) == IPCSH_COMBINING)
        sched_yield();
    if (!code)
        *len = (size_t)count;
    return code;
}

/* Closes a handle, also one whose call is in flight. With its last handle a service ends. NULL is let be. */
static inline void ipcsh_close(ipcsh *handle)
{
    if (handle)
        ipcsh_raw_close(handle);
}

/*
 * Posts a call: any thread that advances a handle of the service may serve it from now on. What it is given is copied.
 * IPCSH_UNKNOWN, IPCSH_BUSY, IPCSH_UNTAKEN, IPCSH_NO_MEMORY, IPCSH_NULL: nothing is posted.
 */
IPCSH_INLINE int ipcsh_post(ipcsh *handle, const struct ipcsh_request *request, const struct ipcsh_lists *lists)
{
    if (!handle || !request)
        return IPCSH_NULL;
    if (!lists)
        return ipcsh_raw_ask(handle, request);
    if ((!lists->text && lists->text_len) || (!lists->ops && lists->ops_len) || (!lists->values && lists->values_len) ||
        (!lists->groups && lists->groups_len))
        return IPCSH_NULL;
    return ipcsh_raw_post(handle, request, IPCSH_SOME(lists->text, const void), lists->text_len, IPCSH_SOME(lists->ops, const struct ipcsh_semop),
                          lists->ops_len, IPCSH_SOME(lists->values, const uint16_t), lists->values_len, IPCSH_SOME(lists->groups, const uint32_t),
                          lists->groups_len);
}

/*
 * Goes on with the handle's call: tries once to serve what is posted, and looks for the reply. It doesn't block.
 * IPCSH_OK: `reply` and the lists in `room` are those of the reply, which is taken. IPCSH_IN_FLIGHT, IPCSH_WAITING: they are as they were.
 * IPCSH_NO_ROOM: `reply` is that of the reply, which isn't taken; call it again with more room. IPCSH_NO_CALL, IPCSH_NULL: nothing is done.
 */
IPCSH_INLINE int ipcsh_advance(ipcsh *handle, struct ipcsh_reply *reply, const struct ipcsh_room *room)
{
    room = ipcsh_room_of(room);
    if (!handle || !reply || !ipcsh_has_room(room))
        return IPCSH_NULL;
    return ipcsh_raw_advance(handle, reply, IPCSH_SOME(room->bytes, void), room->bytes_len, IPCSH_SOME(room->values, uint16_t), room->values_len,
                             IPCSH_SOME(room->objects, struct ipcsh_object), room->objects_len);
}

/* A thread that waits gives up the processor after so many looks, and after so many it sleeps where its call waits. */
enum { IPCSH_LOOKS = 16, IPCSH_YIELDS = 1000 };

/* What a thread does between two looks: its sleeps grow from 10 microseconds to a millisecond. */
static inline void ipcsh_pause(int code, unsigned looks)
{
    struct timeval nap = { 0, 0 };
    if (code != IPCSH_WAITING || looks <= IPCSH_YIELDS) {
        sched_yield();
        return;
    }
    looks -= IPCSH_YIELDS;
    nap.tv_usec = looks < 100 ? 10 * (suseconds_t)looks : 1000;
    select(0, 0, 0, 0, &nap);
}

/*
 * Goes on with the handle's call until it has ended. In between its thread gives up the processor, and sleeps, at most a millisecond, where the
 * call has waited for long. A call that waits ends by another client's call alone, so this may never return. What it returns is that of
 * ipcsh_advance, but for IPCSH_IN_FLIGHT and IPCSH_WAITING.
 */
IPCSH_INLINE int ipcsh_wait(ipcsh *handle, struct ipcsh_reply *reply, const struct ipcsh_room *room)
{
    unsigned looks = 0;
    int code;
    while ((code = ipcsh_advance(handle, reply, room)) > 0) {
        looks += looks <= 2 * IPCSH_YIELDS;
        if (looks > IPCSH_LOOKS)
            ipcsh_pause(code, looks);
    }
    return code;
}

/* The same as ipcsh_post and then ipcsh_wait. IPCSH_NULL: nothing is posted. */
IPCSH_INLINE int ipcsh_call(ipcsh *handle, const struct ipcsh_request *request, const struct ipcsh_lists *lists, struct ipcsh_reply *reply,
                             const struct ipcsh_room *room)
{
    int code = reply && ipcsh_has_room(ipcsh_room_of(room)) ? ipcsh_post(handle, request, lists) : IPCSH_NULL;
    return code ? code : ipcsh_wait(handle, reply, room);
}

/* The name of a rule's code, as docs/PROFILE.md has it; "" for the code of none. */
static inline const char *ipcsh_rule_name(uint32_t code)
{
    static const char *const names[] = {
        "", "not-owner", "needs-resource", "not-same-user", "not-own-user", "not-own-group", "needs-setgid", "too-many-groups",
        "no-key", "ended", "no-process", "interrupted", "message-too-long", "too-many-operations", "queue-full", "would-wait",
        "timed-out", "owner-bits", "group-bits", "other-bits", "read-only", "key-exists", "bad-id", "bad-type", "text-too-long",
        "bad-size", "bad-sem", "bad-argument", "no-operations", "sem-out-of-set", "not-attached", "out-of-segment",
        "too-many-attached", "no-slot", "value-range", "undo-range", "no-message", "removed",
        "client-in-use", "pid-in-use", "bad-pid", "no-client"
    };
    return code < sizeof names / sizeof *names ? names[code] : "";
}

/*
 * The calls by name. Each posts its call at the time `clock`, in seconds, and waits for it. 0: it was granted. Above 0: the number of its error
 * (errno(3)); `reply->rule` says why. Below 0: as ipcsh_post and ipcsh_wait have it. IPCSH_NO_ROOM leaves the reply to be taken by ipcsh_wait.
 */
IPCSH_INLINE int ipcsh_named(ipcsh *handle, const struct ipcsh_request *request, const struct ipcsh_lists *lists, struct ipcsh_reply *reply,
                              const struct ipcsh_room *room)
{
    int code = ipcsh_call(handle, request, lists, reply, room);
    return code ? code : (int)reply->error;
}

/* One that answers a number, which goes to `value`. */
static inline int ipcsh_number(ipcsh *handle, const struct ipcsh_request *request, struct ipcsh_reply *reply, uint32_t *value)
{
    int code = value ? ipcsh_named(handle, request, 0, reply, 0) : IPCSH_NULL;
    if (!code)
        *value = reply->value;
    return code;
}

/* A request of this operation and time, whose other numbers are 0. */
static inline void ipcsh_request_set(struct ipcsh_request *request, enum ipcsh_op op, uint64_t clock)
{
    memset(request, 0, sizeof *request);
    request->op = (uint32_t)op;
    request->clock = clock;
}

static inline struct ipcsh_request ipcsh_request_of(enum ipcsh_op op, uint64_t clock)
{
    struct ipcsh_request request;
    ipcsh_request_set(&request, op, clock);
    return request;
}

/* msgget(2): `value` is the identifier. */
static inline int ipcsh_msgget(ipcsh *handle, uint64_t clock, uint32_t key, uint32_t flags, struct ipcsh_reply *reply, uint32_t *value)
{
    struct ipcsh_request request = ipcsh_request_of(IPCSH_MSGGET, clock);
    request.key = key;
    request.flags = flags;
    return ipcsh_number(handle, &request, reply, value);
}

/* msgsnd of msgop(2): a message of this type with these bytes. It waits while the queue is full, without IPCSH_NOWAIT. */
static inline int ipcsh_msgsnd(ipcsh *handle, uint64_t clock, uint32_t id, int64_t mtype, const void *text, size_t len, uint32_t flags, struct ipcsh_reply *reply)
{
    struct ipcsh_request request;
    struct ipcsh_lists lists = { 0, 0, 0, 0, 0, 0, 0, 0 };
    ipcsh_request_set(&request, IPCSH_MSGSND, clock);
    lists.text = text;
    lists.text_len = len;
    request.id = id;
    request.mtype = mtype;
    request.flags = flags;
    return ipcsh_named(handle, &request, &lists, reply, 0);
}

/* msgrcv of msgop(2): `reply->mtype` is the type and `reply->len` the length of the text. */
static inline int ipcsh_msgrcv(ipcsh *handle, uint64_t clock, uint32_t id, void *text, size_t size, int64_t msgtyp, uint32_t flags, struct ipcsh_reply *reply)
{
    struct ipcsh_request request;
    struct ipcsh_room room = { 0, 0, 0, 0, 0, 0 };
    ipcsh_request_set(&request, IPCSH_MSGRCV, clock);
    room.bytes = text;
    room.bytes_len = size;
    request.id = id;
    request.size = size;
    request.mtype = msgtyp;
    request.flags = flags;
    return ipcsh_named(handle, &request, 0, reply, &room);
}

/* semget(2) */
static inline int ipcsh_semget(ipcsh *handle, uint64_t clock, uint32_t key, uint32_t nsems, uint32_t flags, struct ipcsh_reply *reply, uint32_t *value)
{
    struct ipcsh_request request = ipcsh_request_of(IPCSH_SEMGET, clock);
    request.key = key;
    request.flags = flags;
    request.num = nsems;
    return ipcsh_number(handle, &request, reply, value);
}

/* semop(2) */
static inline int ipcsh_semop(ipcsh *handle, uint64_t clock, uint32_t id, const struct ipcsh_semop *ops, size_t n, struct ipcsh_reply *reply)
{
    struct ipcsh_request request;
    struct ipcsh_lists lists = { 0, 0, 0, 0, 0, 0, 0, 0 };
    ipcsh_request_set(&request, IPCSH_SEMOP, clock);
    lists.ops = ops;
    lists.ops_len = n;
    request.id = id;
    return ipcsh_named(handle, &request, &lists, reply, 0);
}

/* semtimedop of semop(2): it waits for at most so many seconds of the service's clock, which goes on by other calls alone. */
static inline int ipcsh_semtimedop(ipcsh *handle, uint64_t clock, uint32_t id, const struct ipcsh_semop *ops, size_t n, uint64_t timeout, struct ipcsh_reply *reply)
{
    struct ipcsh_request request;
    struct ipcsh_lists lists = { 0, 0, 0, 0, 0, 0, 0, 0 };
    ipcsh_request_set(&request, IPCSH_SEMTIMEDOP, clock);
    lists.ops = ops;
    lists.ops_len = n;
    request.id = id;
    request.timeout = timeout;
    return ipcsh_named(handle, &request, &lists, reply, 0);
}

/* semctl(2) */
static inline int ipcsh_getval(ipcsh *handle, uint64_t clock, uint32_t id, uint32_t num, struct ipcsh_reply *reply, uint32_t *value)
{
    struct ipcsh_request request = ipcsh_request_of(IPCSH_GETVAL, clock);
    request.id = id;
    request.num = num;
    return ipcsh_number(handle, &request, reply, value);
}

static inline int ipcsh_getpid(ipcsh *handle, uint64_t clock, uint32_t id, uint32_t num, struct ipcsh_reply *reply, uint32_t *value)
{
    struct ipcsh_request request = ipcsh_request_of(IPCSH_GETPID, clock);
    request.id = id;
    request.num = num;
    return ipcsh_number(handle, &request, reply, value);
}

static inline int ipcsh_getncnt(ipcsh *handle, uint64_t clock, uint32_t id, uint32_t num, struct ipcsh_reply *reply, uint32_t *value)
{
    struct ipcsh_request request = ipcsh_request_of(IPCSH_GETNCNT, clock);
    request.id = id;
    request.num = num;
    return ipcsh_number(handle, &request, reply, value);
}

static inline int ipcsh_getzcnt(ipcsh *handle, uint64_t clock, uint32_t id, uint32_t num, struct ipcsh_reply *reply, uint32_t *value)
{
    struct ipcsh_request request = ipcsh_request_of(IPCSH_GETZCNT, clock);
    request.id = id;
    request.num = num;
    return ipcsh_number(handle, &request, reply, value);
}

/* semctl(2): `reply->len` is how many values there are. */
static inline int ipcsh_getall(ipcsh *handle, uint64_t clock, uint32_t id, uint16_t *values, size_t n, struct ipcsh_reply *reply)
{
    struct ipcsh_request request;
    struct ipcsh_room room = { 0, 0, 0, 0, 0, 0 };
    ipcsh_request_set(&request, IPCSH_GETALL, clock);
    room.values = values;
    room.values_len = n;
    request.id = id;
    return ipcsh_named(handle, &request, 0, reply, &room);
}

static inline int ipcsh_setval(ipcsh *handle, uint64_t clock, uint32_t id, uint32_t num, int32_t value, struct ipcsh_reply *reply)
{
    struct ipcsh_request request;
    ipcsh_request_set(&request, IPCSH_SETVAL, clock);
    request.id = id;
    request.num = num;
    request.value = value;
    return ipcsh_named(handle, &request, 0, reply, 0);
}

static inline int ipcsh_setall(ipcsh *handle, uint64_t clock, uint32_t id, const uint16_t *values, size_t n, struct ipcsh_reply *reply)
{
    struct ipcsh_request request;
    struct ipcsh_lists lists = { 0, 0, 0, 0, 0, 0, 0, 0 };
    ipcsh_request_set(&request, IPCSH_SETALL, clock);
    lists.values = values;
    lists.values_len = n;
    request.id = id;
    return ipcsh_named(handle, &request, &lists, reply, 0);
}

/* shmget(2) */
static inline int ipcsh_shmget(ipcsh *handle, uint64_t clock, uint32_t key, uint64_t size, uint32_t flags, struct ipcsh_reply *reply, uint32_t *value)
{
    struct ipcsh_request request = ipcsh_request_of(IPCSH_SHMGET, clock);
    request.key = key;
    request.flags = flags;
    request.size = size;
    return ipcsh_number(handle, &request, reply, value);
}

/* shmat of shmop(2): `value` is the number of the attachment, by which its bytes are read and written. */
static inline int ipcsh_shmat(ipcsh *handle, uint64_t clock, uint32_t id, uint32_t flags, struct ipcsh_reply *reply, uint32_t *value)
{
    struct ipcsh_request request = ipcsh_request_of(IPCSH_SHMAT, clock);
    request.id = id;
    request.flags = flags;
    return ipcsh_number(handle, &request, reply, value);
}

static inline int ipcsh_shmdt(ipcsh *handle, uint64_t clock, uint32_t attachment, struct ipcsh_reply *reply)
{
    struct ipcsh_request request;
    ipcsh_request_set(&request, IPCSH_SHMDT, clock);
    request.id = attachment;
    return ipcsh_named(handle, &request, 0, reply, 0);
}

/* They stand for mapped memory. */
static inline int ipcsh_shmread(ipcsh *handle, uint64_t clock, uint32_t attachment, uint64_t offset, void *bytes, size_t len, struct ipcsh_reply *reply)
{
    struct ipcsh_request request;
    struct ipcsh_room room = { 0, 0, 0, 0, 0, 0 };
    ipcsh_request_set(&request, IPCSH_SHMREAD, clock);
    room.bytes = bytes;
    room.bytes_len = len;
    request.id = attachment;
    request.offset = offset;
    request.size = len;
    return ipcsh_named(handle, &request, 0, reply, &room);
}

static inline int ipcsh_shmwrite(ipcsh *handle, uint64_t clock, uint32_t attachment, uint64_t offset, const void *bytes, size_t len, struct ipcsh_reply *reply)
{
    struct ipcsh_request request;
    struct ipcsh_lists lists = { 0, 0, 0, 0, 0, 0, 0, 0 };
    ipcsh_request_set(&request, IPCSH_SHMWRITE, clock);
    lists.text = bytes;
    lists.text_len = len;
    request.id = attachment;
    request.offset = offset;
    return ipcsh_named(handle, &request, &lists, reply, 0);
}

/* IPC_STAT of msgctl(2), semctl(2) and shmctl(2). It doesn't repeat the identifier. */
static inline int ipcsh_stat(ipcsh *handle, uint64_t clock, enum ipcsh_kind kind, uint32_t id, struct ipcsh_object *object, struct ipcsh_reply *reply)
{
    struct ipcsh_request request;
    struct ipcsh_room room = { 0, 0, 0, 0, 0, 0 };
    ipcsh_request_set(&request, IPCSH_STAT, clock);
    room.objects = object;
    room.objects_len = 1;
    request.kind = (uint32_t)kind;
    request.id = id;
    return ipcsh_named(handle, &request, 0, reply, &room);
}

/* IPC_SET: `qbytes` may be NULL, and is of queues alone. */
static inline int ipcsh_set(ipcsh *handle, uint64_t clock, enum ipcsh_kind kind, uint32_t id, uint32_t uid, uint32_t gid, uint32_t mode, const uint64_t *qbytes, struct ipcsh_reply *reply)
{
    struct ipcsh_request request;
    ipcsh_request_set(&request, IPCSH_SET, clock);
    request.kind = (uint32_t)kind;
    request.id = id;
    request.uid = uid;
    request.gid = gid;
    request.mode = mode;
    request.more = qbytes != 0;
    request.size = qbytes ? *qbytes : 0;
    return ipcsh_named(handle, &request, 0, reply, 0);
}

/* IPC_RMID */
static inline int ipcsh_rmid(ipcsh *handle, uint64_t clock, enum ipcsh_kind kind, uint32_t id, struct ipcsh_reply *reply)
{
    struct ipcsh_request request;
    ipcsh_request_set(&request, IPCSH_RMID, clock);
    request.kind = (uint32_t)kind;
    request.id = id;
    return ipcsh_named(handle, &request, 0, reply, 0);
}

/* ipcs(1): `reply->len` is how many objects there are. */
static inline int ipcsh_listing(ipcsh *handle, uint64_t clock, enum ipcsh_kind kind, struct ipcsh_object *objects, size_t n, struct ipcsh_reply *reply)
{
    struct ipcsh_request request;
    struct ipcsh_room room = { 0, 0, 0, 0, 0, 0 };
    ipcsh_request_set(&request, IPCSH_LISTING, clock);
    room.objects = objects;
    room.objects_len = n;
    request.kind = (uint32_t)kind;
    return ipcsh_named(handle, &request, 0, reply, &room);
}

/* Ends the waiting calls of a process's threads, as signals would (EINTR). A client's first process has its number plus 1. */
static inline int ipcsh_interrupt(ipcsh *handle, uint64_t clock, uint32_t pid, struct ipcsh_reply *reply)
{
    struct ipcsh_request request;
    ipcsh_request_set(&request, IPCSH_INTERRUPT, clock);
    request.id = pid;
    return ipcsh_named(handle, &request, 0, reply, 0);
}

/* Ends the waiting call of one client, as a signal to its thread would. */
static inline int ipcsh_interrupt_thread(ipcsh *handle, uint64_t clock, uint32_t client, struct ipcsh_reply *reply)
{
    struct ipcsh_request request;
    ipcsh_request_set(&request, IPCSH_INTERRUPT_THREAD, clock);
    request.id = client;
    return ipcsh_named(handle, &request, 0, reply, 0);
}

/* kill(2) with SIGKILL: the threads of the process end, and so does it. */
static inline int ipcsh_kill(ipcsh *handle, uint64_t clock, uint32_t pid, struct ipcsh_reply *reply)
{
    struct ipcsh_request request;
    ipcsh_request_set(&request, IPCSH_KILL, clock);
    request.id = pid;
    return ipcsh_named(handle, &request, 0, reply, 0);
}

/* seteuid(2), setegid(2) and setgroups(2) in one; the groups stay where `groups` is NULL. */
static inline int ipcsh_setcreds(ipcsh *handle, uint64_t clock, uint32_t uid, uint32_t gid, const uint32_t *groups, size_t n, struct ipcsh_reply *reply)
{
    struct ipcsh_request request;
    struct ipcsh_lists lists = { 0, 0, 0, 0, 0, 0, 0, 0 };
    ipcsh_request_set(&request, IPCSH_SETCREDS, clock);
    lists.groups = groups;
    lists.groups_len = groups ? n : 0;
    request.uid = uid;
    request.gid = gid;
    request.more = groups != 0;
    return ipcsh_named(handle, &request, &lists, reply, 0);
}

/* Credentials as a call hands them in. */
struct ipcsh_identity {
    uint32_t uid, gid, ruid, rgid, suid, sgid;
    const uint32_t *groups; /* may be NULL where there are none */
    size_t ngroups;         /* 32 at most */
    uint8_t caps;           /* IPCSH_IPC_OWNER and the others, added */
};

/* A request that hands in credentials; `id` is the pid of begin. */
static inline int ipcsh_handed_in(ipcsh *handle, enum ipcsh_op op, uint64_t clock, uint32_t id, const struct ipcsh_identity *creds, struct ipcsh_reply *reply)
{
    struct ipcsh_request request;
    struct ipcsh_lists lists = { 0, 0, 0, 0, 0, 0, 0, 0 };
    if (!creds)
        return IPCSH_NULL;
    ipcsh_request_set(&request, op, clock);
    request.id = id;
    request.uid = creds->uid;
    request.gid = creds->gid;
    request.ruid = creds->ruid;
    request.rgid = creds->rgid;
    request.suid = creds->suid;
    request.sgid = creds->sgid;
    request.caps = creds->caps;
    lists.groups = creds->groups;
    lists.groups_len = creds->ngroups;
    return ipcsh_named(handle, &request, &lists, reply, 0);
}

/* The client has these credentials from now on. */
static inline int ipcsh_assume(ipcsh *handle, uint64_t clock, const struct ipcsh_identity *creds, struct ipcsh_reply *reply)
{
    return ipcsh_handed_in(handle, IPCSH_ASSUME, clock, 0, creds, reply);
}

/* The client, which has ended, begins anew as the only thread of a new process. */
static inline int ipcsh_begin(ipcsh *handle, uint64_t clock, uint32_t pid, const struct ipcsh_identity *creds, struct ipcsh_reply *reply)
{
    return ipcsh_handed_in(handle, IPCSH_BEGIN, clock, pid, creds, reply);
}

/* fork(2): another client, which has ended, becomes the only thread of a new process with copies of the caller's attachments. */
static inline int ipcsh_fork(ipcsh *handle, uint64_t clock, uint32_t child, uint32_t pid, struct ipcsh_reply *reply)
{
    struct ipcsh_request request;
    ipcsh_request_set(&request, IPCSH_FORK, clock);
    request.num = child;
    request.id = pid;
    return ipcsh_named(handle, &request, 0, reply, 0);
}

/* clone(2): another client, which has ended, becomes one more thread of the caller's process. */
static inline int ipcsh_clone(ipcsh *handle, uint64_t clock, uint32_t child, struct ipcsh_reply *reply)
{
    struct ipcsh_request request;
    ipcsh_request_set(&request, IPCSH_CLONE, clock);
    request.num = child;
    return ipcsh_named(handle, &request, 0, reply, 0);
}

/* The caller's process has another pid from now on. */
static inline int ipcsh_name(ipcsh *handle, uint64_t clock, uint32_t pid, struct ipcsh_reply *reply)
{
    struct ipcsh_request request;
    ipcsh_request_set(&request, IPCSH_NAME, clock);
    request.id = pid;
    return ipcsh_named(handle, &request, 0, reply, 0);
}

/* execve(2): the other threads of the process end, and its attachments go. */
static inline int ipcsh_exec(ipcsh *handle, uint64_t clock, struct ipcsh_reply *reply)
{
    struct ipcsh_request request;
    ipcsh_request_set(&request, IPCSH_EXEC, clock);
    return ipcsh_named(handle, &request, 0, reply, 0);
}

/* _exit(2): the client's thread ends; with the last of its process what their operations with IPCSH_SEM_UNDO left is undone, and the attachments go. */
static inline int ipcsh_exit(ipcsh *handle, uint64_t clock, struct ipcsh_reply *reply)
{
    struct ipcsh_request request;
    ipcsh_request_set(&request, IPCSH_EXIT, clock);
    return ipcsh_named(handle, &request, 0, reply, 0);
}

#ifdef __cplusplus
}
#endif

#endif
