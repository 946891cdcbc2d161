/* One call, from its line to its answer. All signals are blocked meanwhile but in the wait itself, so that a handler never finds a lock held, and
   finds the call where the kernel would have it: waiting, or made. */
#define _GNU_SOURCE
#include "ipcrun.h"

#include <errno.h>
#include <stdarg.h>
#include <stdio.h>
#include <stdlib.h>
#include <string.h>

static const struct wait always;

long fail_with(int error)
{
    errno = error;
    return -1;
}

/* Blocks all signals but those of faults, which are the program's own where it hands out a bad address. */
void block_signals(sigset_t *before)
{
    static const int faults[] = {SIGSEGV, SIGBUS, SIGFPE, SIGILL, SIGTRAP, SIGABRT, SIGSYS};
    sigset_t all;
    sigfillset(&all);
    for (size_t at = 0; at < sizeof faults / sizeof *faults; at++)
        sigdelset(&all, faults[at]);
    pthread_sigmask(SIG_BLOCK, &all, before);
}

/* Begins a call by a client: its line has the client's name. Where that can't be errno says why. */
bool call_begin(struct call *call, enum manner manner)
{
    struct creds creds;
    memset(call, 0, sizeof *call);
    call->errno_before = errno;
    call->may_wait = manner == MAY_WAIT;
    block_signals(&call->signals);
    call->signals_before = program_signals;
    program_signals = &call->signals;
    pthread_setcancelstate(PTHREAD_CANCEL_DISABLE, &call->cancel_state);
    if (!behind_is_there() || !creds_now(&creds))
        call->error = ENOSYS;
    else if (rows_are_over())
        call->error = EIO;
    if (!call->error) {
        call->client = take_client(call->may_wait);
        if (!client_becomes(call->client, &creds))
            call->error = rows_are_over() ? EIO : ENOSYS;
    }
    if (call->error) {
        call_end(call, -1);
        return false;
    }
    text_clear(&call->client->line);
    text_print(&call->client->line, "%s ", name_of(call->client));
    return true;
}

/* Where all clients wait, one more call may not: it is made by the process's client, with IPC_NOWAIT. */
bool must_not_wait(const struct call *call)
{
    return call->may_wait && call->client == clients + PROCESS;
}

/* EAGAIN, and a line that says so once, where such a call would have to wait. */
void refuse_to_wait(struct call *call)
{
    static bool told;
    if (!told)
        complain("%d calls wait; where another would have to, it gets EAGAIN", CLIENTS - 1);
    told = true;
    call->error = EAGAIN;
}

void call_say(struct call *call, const char *format, ...)
{
    char some[256];
    va_list list;
    va_start(list, format);
    vsnprintf(some, sizeof some, format, list);
    va_end(list);
    text_add(&call->client->line, some, strlen(some));
}

/* Ends the wait of a call, as a signal does; before that the clock reaches the deadline of a call whose time is over. Its row is then on the way,
   if it wasn't before. Who interrupts needs the user of who waits. */
static void withdraw(struct call *call, enum waited how)
{
    struct client *process = process_client();
    bool may = client_becomes(process, &call->client->told);
    text_clear(&process->line);
    text_print(&process->line, "%s interrupt %d\n", name_of(process), number_of(call->client) + 1);
    rows_expect(process);
    uint64_t now = ticks_now();
    if (may)
        behind_send(&process->line, how == TIMED_OUT ? (now > call->deadline ? now : call->deadline) : 0);
    else
        behind_end();
    rows_await(process, &always);
    client_give_back(process);
}

/* errno of a refusal: `error NUMBER NAME RULE`. */
static int error_in(const char *row)
{
    return strncmp(row, "error ", 6) == 0 ? atoi(row + 6) : 0;
}

/* Sends the line and waits for its row. Where the call was refused the answer is NULL, and `error` has the number. */
const char *call_make(struct call *call)
{
    struct client *client = call->client;
    text_add(&client->line, "\n", 1);
    call->error = client->line.failed ? ENOMEM : client->line.length > LINE_MOST + 1 ? ENOSYS : 0;
    if (call->error)
        return NULL;
    uint64_t now = call->timed ? ticks_now() : 0;
    call->deadline = now + call->timeout;
    rows_expect(client);
    behind_send(&client->line, now);
    struct wait how = {.signals = call->may_wait && !must_not_wait(call) ? &call->signals : NULL,
                       .until = call->timeout && !must_not_wait(call) ? &call->until : NULL,
                       .cancelled = call->may_be_cancelled && !must_not_wait(call) ? call : NULL};
    enum waited end = rows_await(client, &how);
    if (end != ANSWERED) {
        withdraw(call, end);
        rows_await(client, &always);
    }
    if (!client->answered)
        call->error = EIO;
    else
        call->error = client->row.failed ? ENOMEM : error_in(client->row.bytes);
    if (end == TIMED_OUT && call->error == EINTR)
        call->error = EAGAIN;
    return call->error ? NULL : client->row.bytes;
}

/* What follows these words of a row. A row that is no answer to its call is EIO. */
const char *after(struct call *call, const char *row, const char *words)
{
    size_t length = strlen(words);
    if (strncmp(row, words, length) == 0)
        return row + length;
    call->error = EIO;
    return NULL;
}

/* Another line of the same call. */
const char *call_line(struct call *call, const char *format, ...)
{
    char some[256];
    va_list list;
    va_start(list, format);
    vsnprintf(some, sizeof some, format, list);
    va_end(list);
    text_clear(&call->client->line);
    text_print(&call->client->line, "%s %s", name_of(call->client), some);
    return call_make(call);
}

/* Ends a call: the program's signals are again its own, and so is errno where the call is granted. */
long call_end(struct call *call, long result)
{
    int error = call->error;
    if (call->client)
        client_give_back(call->client);
    program_signals = call->signals_before;
    pthread_setcancelstate(call->cancel_state, &call->cancel_state);
    pthread_sigmask(SIG_SETMASK, &call->signals, NULL);
    errno = error ? error : call->errno_before;
    return error ? -1 : result;
}

/* The thread is cancelled while its call waits: the call is withdrawn, and its client free again. */
void call_give_up(struct call *call)
{
    rows_leave(call->client);
    withdraw(call, INTERRUPTED);
    rows_await(call->client, &always);
    call_end(call, -1);
}

/* A call that never waits, and answers a number or nothing. */
long simple_call(const char *format, ...)
{
    struct call call;
    char some[256];
    va_list list;
    if (!call_begin(&call, NEVER_WAITS))
        return -1;
    va_start(list, format);
    vsnprintf(some, sizeof some, format, list);
    va_end(list);
    call_say(&call, "%s", some);
    const char *row = call_make(&call);
    const char *number = row ? strchr(row, ' ') : NULL;
    return call_end(&call, number ? strtol(number + 1, NULL, 10) : 0);
}

static struct {
    int id;
    size_t size;
} sizes[KINDS][SLOTS];
static pthread_mutex_t sizes_lock = PTHREAD_MUTEX_INITIALIZER;

/* The get that makes an object asks for its whole size, and no later get for more. */
void size_note(enum kind kind, int id, size_t size)
{
    sigset_t before;
    if (id < 0)
        return;
    block_signals(&before);
    pthread_mutex_lock(&sizes_lock);
    __typeof__(&sizes[0][0]) entry = &sizes[kind][id % SLOTS];
    /* Of two objects in one slot the later one has the greater identifier. */
    if (id > entry->id || (id == entry->id && size > entry->size)) {
        entry->id = id;
        entry->size = size;
    }
    pthread_mutex_unlock(&sizes_lock);
    pthread_sigmask(SIG_SETMASK, &before, NULL);
}

size_t size_of(enum kind kind, int id)
{
    size_t size = 0;
    if (id < 0)
        return 0;
    pthread_mutex_lock(&sizes_lock);
    if (sizes[kind][id % SLOTS].id == id)
        size = sizes[kind][id % SLOTS].size;
    pthread_mutex_unlock(&sizes_lock);
    return size;
}
