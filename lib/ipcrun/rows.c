/* The one reader of rows. There is no thread for it: of the threads that wait for rows one reads, and hands out what comes; the others sleep. A
   reader that has its own row leaves, and wakes another one to read. */
#define _GNU_SOURCE
#include "ipcrun.h"

#include <errno.h>
#include <poll.h>
#include <stdint.h>
#include <stdlib.h>
#include <string.h>
#include <sys/eventfd.h>
#include <sys/socket.h>
#include <unistd.h>

enum { PIECE = 65536, NAP = 1000000 };

static pthread_mutex_t lock = PTHREAD_MUTEX_INITIALIZER;
static bool reading; /* some thread reads, this one */
static pthread_t reader;
static bool over;         /* no row comes any more */
static struct text input; /* what was read and isn't a whole row yet; the reader's own */
static char last_words[200];

__thread const sigset_t *program_signals;

bool rows_are_over(void)
{
    pthread_mutex_lock(&lock);
    bool is_over = over;
    pthread_mutex_unlock(&lock);
    return is_over;
}

static void wake(struct client *client)
{
    uint64_t one = 1;
    if (client->asleep && client->wake >= 0 && write(client->wake, &one, sizeof one) < 0)
        complain("a thread can't be woken: %s", strerror(errno));
}

/* The program has ended, or the rows can't be read: nobody waits any longer. Under the lock. */
static void end_rows(const char *why)
{
    if (over)
        return;
    over = true;
    complain("the program behind has ended (%s); calls get EIO from now on", *last_words ? last_words : why);
    for (int at = 0; at < CLIENTS; at++)
        wake(clients + at);
}

static void rows_end(const char *why)
{
    pthread_mutex_lock(&lock);
    end_rows(why);
    pthread_mutex_unlock(&lock);
}

/* Whether all clients of calls that may wait do. */
bool rows_all_wait(void)
{
    bool all = true;
    pthread_mutex_lock(&lock);
    for (int at = PROCESS + 1; at < CLIENTS; at++)
        all &= clients[at].waits;
    pthread_mutex_unlock(&lock);
    return all;
}

void rows_expect(struct client *client)
{
    pthread_mutex_lock(&lock);
    client->expects = true;
    client->waits = false;
    client->answered = false;
    client->called = true;
    pthread_mutex_unlock(&lock);
}

/* A row is `PLACE.TURN NAME ANSWER`. What else comes is a fault, which the end of the rows follows. */
static void hand_out(char *row)
{
    char *name = strchr(row, ' ');
    struct client *client = name ? client_named(name + 1) : NULL;
    if (!client) {
        strncpy(last_words, row, sizeof last_words - 1);
        if (strncmp(row, "line ", 5) == 0)
            end_rows(row); /* a line that it doesn't take gets no other row */
        return;
    }
    const char *answer = name + 4;
    if (!client->expects)
        return;
    client->waits = strcmp(answer, "waits") == 0;
    if (client->waits)
        return;
    text_clear(&client->row);
    text_add(&client->row, answer, strlen(answer));
    client->expects = false;
    client->answered = true;
    wake(client);
}

/* Hands out the whole rows of what was read. Under the lock. */
static void hand_out_all(void)
{
    char *at = input.bytes, *end = input.bytes + input.length, *feed;
    while ((feed = memchr(at, '\n', (size_t)(end - at)))) {
        *feed = 0;
        hand_out(at);
        at = feed + 1;
    }
    if (at > input.bytes)
        text_drop(&input, (size_t)(at - input.bytes));
}

/* The time that is left, at least none. */
static const struct timespec *left_until(const struct timespec *until, struct timespec *left)
{
    struct timespec now;
    if (!until || clock_gettime(CLOCK_MONOTONIC, &now) != 0)
        return NULL;
    left->tv_sec = until->tv_sec - now.tv_sec;
    left->tv_nsec = until->tv_nsec - now.tv_nsec;
    if (left->tv_nsec < 0) {
        left->tv_nsec += 1000000000;
        left->tv_sec--;
    }
    if (left->tv_sec < 0)
        left->tv_sec = left->tv_nsec = 0;
    return left;
}

static void give_up(void *call) { call_give_up(call); }

/* poll(2) with the program's signals let in; where the call may be cancelled this is where. */
static int pause_on(struct pollfd *file, const struct wait *how, const struct timespec *left)
{
    int state, ready;
    if (!how->cancelled)
        return ppoll(file, 1, left, how->signals);
    pthread_cleanup_push(give_up, how->cancelled);
    pthread_setcancelstate(how->cancelled->cancel_state, &state);
    ready = ppoll(file, 1, left, how->signals);
    pthread_setcancelstate(PTHREAD_CANCEL_DISABLE, &state);
    pthread_cleanup_pop(0);
    return ready;
}

/* The signals that end or stop the process by default are let in, where the program doesn't block them; no handler is. */
static void block_handlers(sigset_t *blocked)
{
    struct sigaction action;
    sigfillset(blocked);
    for (int signal = 1; program_signals && signal < NSIG; signal++)
        if (!sigismember(program_signals, signal) && sigaction(signal, NULL, &action) == 0 && action.sa_handler == SIG_DFL)
            sigdelset(blocked, signal);
}

/* poll(2) for a row that comes at once; where it takes its time the process can be killed meanwhile. */
static void pause_shortly(struct pollfd *file)
{
    sigset_t blocked;
    if (ppoll(file, 1, &(struct timespec){.tv_sec = 1}, NULL) != 0)
        return;
    block_handlers(&blocked);
    ppoll(file, 1, NULL, &blocked);
}

/* Without the lock: waits until the file has something. */
static enum waited wait_for(int file, const struct wait *how)
{
    struct timespec left;
    struct pollfd polled = {.fd = file, .events = POLLIN};
    if (!how->signals) {
        pause_shortly(&polled);
        return ANSWERED;
    }
    int ready = pause_on(&polled, how, left_until(how->until, &left));
    if (ready == 0)
        return TIMED_OUT;
    return ready < 0 && errno == EINTR ? INTERRUPTED : ANSWERED;
}

static bool receive(void)
{
    if (!text_reserve(&input, PIECE)) {
        rows_end("no memory for its rows");
        return false;
    }
    ssize_t count = recv(behind_file(), input.bytes + input.length, PIECE, MSG_DONTWAIT);
    if (count < 0 && (errno == EAGAIN || errno == EINTR))
        return false;
    if (count <= 0) {
        rows_end(count < 0 ? strerror(errno) : "without a word");
        return false;
    }
    input.length += (size_t)count;
    return true;
}

/* Reads once and hands out what came. Under the lock, which it leaves meanwhile. A thread that reads already, and is in a signal handler, reads
   here too. */
static enum waited read_rows(const struct wait *how)
{
    bool outer = reading;
    reading = true;
    reader = pthread_self();
    pthread_mutex_unlock(&lock);
    enum waited end = wait_for(behind_file(), how);
    bool received = end == ANSWERED && receive();
    pthread_mutex_lock(&lock);
    if (received)
        hand_out_all();
    reading = outer;
    return end;
}

/* Sleeps until another thread wakes this one: it has a row, or shall read. Under the lock, which it leaves meanwhile. */
static enum waited sleep_until_woken(struct client *client, const struct wait *how)
{
    if (client->wake < 0) {
        int file = eventfd(0, EFD_CLOEXEC | EFD_NONBLOCK);
        client->wake = file < 0 ? -1 : high_file(file);
    }
    client->asleep = true;
    pthread_mutex_unlock(&lock);
    enum waited end = ANSWERED;
    uint64_t count;
    if (client->wake >= 0) {
        end = wait_for(client->wake, how);
        if (end == ANSWERED && read(client->wake, &count, sizeof count) < 0 && errno != EAGAIN)
            rows_end("a file of ipcrun was closed");
    } else {
        nanosleep(&(struct timespec){.tv_nsec = NAP}, NULL);
    }
    pthread_mutex_lock(&lock);
    client->asleep = false;
    return end;
}

static void wake_a_reader(void)
{
    for (int at = 0; at < CLIENTS; at++)
        if (clients[at].asleep && !clients[at].answered) {
            wake(clients + at);
            return;
        }
}

/* Waits until the client's row is there, or none comes any more; or until a signal or the time ends the wait. */
enum waited rows_await(struct client *client, const struct wait *how)
{
    enum waited end = ANSWERED;
    pthread_mutex_lock(&lock);
    while (!client->answered && !over && end == ANSWERED)
        if (reading && !pthread_equal(reader, pthread_self()))
            end = sleep_until_woken(client, how);
        else
            end = read_rows(how);
    if (!reading)
        wake_a_reader();
    if (client->answered || over)
        end = ANSWERED;
    pthread_mutex_unlock(&lock);
    return end;
}

/* The thread was cancelled in its wait: it neither reads nor sleeps any longer. */
void rows_leave(struct client *client)
{
    pthread_mutex_lock(&lock);
    if (reading && pthread_equal(reader, pthread_self()))
        reading = false;
    client->asleep = false;
    if (!reading)
        wake_a_reader();
    pthread_mutex_unlock(&lock);
}
