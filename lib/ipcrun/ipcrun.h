/* The layer of ./ipcrun: the System V IPC calls of one process, made as lines of a script by the program ipcsh. docs/IPCRUN.md says what a program
   sees of it.

       text.c        growing texts, hexadecimal bytes, the fields of a row
       behind.c      the program behind: its start, the socket to it, its end
       rows.c        the one reader of its rows, and the threads that wait for theirs
       clients.c     the clients of the script, and the credentials of the process
       calls.c       one call, from its line to its answer
       messages.c, semaphores.c, segments.c    what a program calls */
#ifndef IPCRUN_H
#define IPCRUN_H

#include <pthread.h>
#include <signal.h>
#include <stdbool.h>
#include <stddef.h>
#include <stdint.h>
#include <sys/ipc.h>
#include <sys/types.h>
#include <time.h>

/* The limits that the script sets, or that are its defaults; and a tick of its clock, in which 1000000 are a second. */
enum { CLIENTS = 64, PROCESS = 0, SLOTS = 32768, GROUPS = 32, MSGMAX_BYTES = 8192, SEMOPM_OPS = 500, LINE_MOST = 65536 };
enum { TICKS = 1000000 };

/* What the program calls in the place of the C library's function; all else of the layer it can't name. */
#define FOR_PROGRAMS __attribute__((visibility("default")))

/* text.c: a text that grows by pages of its own, since a signal handler that interrupts malloc may call msgsnd. `failed` is kept until it is
   cleared: there was no memory for all of it. A text that isn't empty ends with a 0 that its length doesn't count. */
struct text {
    char *bytes;
    size_t length;
    size_t room;
    bool failed;
};

void text_clear(struct text *text);
bool text_reserve(struct text *text, size_t more);
void text_add(struct text *text, const char *bytes, size_t count);
void text_drop(struct text *text, size_t count);
void text_print(struct text *text, const char *format, ...) __attribute__((format(printf, 2, 3)));
void text_hex(struct text *text, const unsigned char *bytes, size_t count);
void text_bytes(struct text *text, const unsigned char *bytes, size_t count);
size_t bytes_of_hex(const char *hex, unsigned char *bytes, size_t most);
unsigned long field_of(const char *row, const char *name, int base);
void perm_of(const char *row, int id, struct ipc_perm *perm);
pid_t pid_of(const char *row, const char *name);
time_t time_of(const char *row, const char *name);

/* behind.c */
void complain(const char *format, ...) __attribute__((format(printf, 1, 2)));
bool behind_is_there(void);
int behind_file(void);
int high_file(int file);
void behind_end(void);
void behind_send(const struct text *lines, uint64_t ticks);
uint64_t ticks_now(void);
uint64_t ticks_of(const struct timespec *time);

/* rows.c: how a call waits for its row. Without `signals` no signal ends the wait; without `until`, of CLOCK_MONOTONIC, no time does. */
enum waited { ANSWERED, INTERRUPTED, TIMED_OUT };

struct call;

struct wait {
    const sigset_t *signals;
    const struct timespec *until;
    struct call *cancelled; /* the call to be given up where its thread is cancelled */
};

struct client;

/* The signals that the program blocks, while a call of this thread is made. */
extern __thread const sigset_t *program_signals;

enum waited rows_await(struct client *client, const struct wait *how);
void rows_leave(struct client *client);
bool rows_are_over(void);
bool rows_all_wait(void);
void rows_expect(struct client *client);

/* clients.c */
struct creds {
    uid_t uid;
    gid_t gid;
    int count;
    gid_t groups[GROUPS];
};

struct client {
    bool taken;    /* a call is being made */
    bool called;   /* it has made a call */
    bool expects;  /* a row is to come; this and what follows is under the lock of rows.c */
    bool waits;    /* the call waits, as a row has told */
    bool answered; /* its answer has come */
    bool asleep;   /* its thread sleeps until `wake` is written */
    int wake;      /* an eventfd, or -1 */
    struct creds told;
    struct text line;
    struct text row;
};

extern struct client clients[CLIENTS];

int number_of(const struct client *client);
const char *name_of(const struct client *client);
struct client *client_named(const char *name);
bool creds_now(struct creds *creds);
bool clients_declare(struct text *lines);
struct client *process_client(void);
struct client *take_client(bool may_wait);
void client_give_back(struct client *client);
bool client_becomes(struct client *client, const struct creds *creds);

/* calls.c: `error` is the number that errno gets, or 0. */
struct call {
    struct client *client;
    int error;
    int errno_before;
    bool may_wait;
    int cancel_state;
    bool may_be_cancelled;
    sigset_t signals;
    const sigset_t *signals_before; /* of the call that a handler has interrupted */
    bool timed;       /* it is a semtimedop; its timeout and its deadline in ticks, and when it ends at the latest, of CLOCK_MONOTONIC */
    uint64_t timeout;
    uint64_t deadline;
    struct timespec until;
};

enum manner { NEVER_WAITS, MAY_WAIT };

void block_signals(sigset_t *before);
bool call_begin(struct call *call, enum manner manner);
void call_say(struct call *call, const char *format, ...) __attribute__((format(printf, 2, 3)));
const char *call_make(struct call *call);
const char *after(struct call *call, const char *row, const char *words);
const char *call_line(struct call *call, const char *format, ...) __attribute__((format(printf, 2, 3)));
long call_end(struct call *call, long result);
void call_give_up(struct call *call);
bool must_not_wait(const struct call *call);
void refuse_to_wait(struct call *call);
long fail_with(int error);
long simple_call(const char *format, ...) __attribute__((format(printf, 1, 2)));

/* How many semaphores or bytes the object of an identifier has: every object is made by this process, and no identifier comes again. */
enum kind { SET, SEGMENT, KINDS };
void size_note(enum kind kind, int id, size_t size);
size_t size_of(enum kind kind, int id);

#endif
