/* The program behind: its start at the first call, the socket to it, its end.

   It is no child of this process as wait(2) sees it, holds none of its files and no controlling terminal, and ends when the socket is closed. */
#define _GNU_SOURCE
#include "ipcrun.h"

#include <errno.h>
#include <fcntl.h>
#include <limits.h>
#include <stdarg.h>
#include <stdio.h>
#include <stdlib.h>
#include <string.h>
#include <sys/mman.h>
#include <sys/resource.h>
#include <sys/sendfile.h>
#include <sys/socket.h>
#include <sys/syscall.h>
#include <sys/wait.h>
#include <unistd.h>

enum { HIGHEST = 1000, KEPT_FREE = 100 };
enum state { NOT_STARTED, STARTED, CANNOT_START };

static pthread_mutex_t starting = PTHREAD_MUTEX_INITIALIZER;
static pthread_mutex_t sending = PTHREAD_MUTEX_INITIALIZER;
static enum state state; /* under `starting` */
static pid_t owner;      /* the process that started it, of which a forked child is none */
static int behind = -1;
static int program_file = -1;
static int script = -1;
static uint64_t sent_second; /* of the last clock line; under `sending` */

/* One line on standard error. */
void complain(const char *format, ...)
{
    char line[512] = "ipcrun: ";
    size_t head = strlen(line);
    va_list list;
    va_start(list, format);
    vsnprintf(line + head, sizeof line - head - 1, format, list);
    va_end(list);
    strcat(line, "\n");
    if (write(STDERR_FILENO, line, strlen(line)) < 0)
        return; /* there is nobody to tell */
}

int behind_file(void) { return behind; }

/* Gives a file a high number, so that the program gets the low ones as if the layer weren't there. */
int high_file(int file)
{
    struct rlimit limit;
    int lowest = HIGHEST - KEPT_FREE;
    if (getrlimit(RLIMIT_NOFILE, &limit) == 0 && limit.rlim_cur < HIGHEST)
        lowest = limit.rlim_cur > 2 * KEPT_FREE ? (int)limit.rlim_cur - KEPT_FREE : (int)limit.rlim_cur / 2;
    int high = fcntl(file, F_DUPFD_CLOEXEC, lowest);
    if (high < 0)
        return file;
    close(file);
    return high;
}

static void close_all_from(unsigned first)
{
#ifdef SYS_close_range
    if (syscall(SYS_close_range, first, ~0U, 0) == 0)
        return;
#endif
    long most = sysconf(_SC_OPEN_MAX);
    for (long file = first; file < (most > 0 && most < 65536 ? most : 65536); file++)
        close((int)file);
}

static void open_script(const char *name)
{
    script = open(name, O_WRONLY | O_CREAT | O_APPEND | O_CLOEXEC, 0666);
    if (script < 0)
        complain("%s: %s; the script isn't kept", name, strerror(errno));
    else
        script = high_file(script);
}

/* The name that was given for the script, for the process that ./ipcrun became, or for another one, which has its number after it. */
static const char *script_name(bool first)
{
    static char name[PATH_MAX];
    const char *named = getenv("IPCRUN_SCRIPT"), *process = getenv("IPCRUN_PROCESS");
    if (!named || !process || first != (strtol(process, NULL, 10) == getpid()))
        return NULL;
    int length = snprintf(name, sizeof name, first ? "%s" : "%s.%d", named, (int)getpid());
    return length > 0 && (size_t)length < sizeof name ? name : NULL;
}

/* The files are opened when the process begins, as it may become a user who can't reach them; the script of another process only at its first call. */
__attribute__((constructor)) static void open_files(void)
{
    const char *program = getenv("IPCRUN_PROGRAM"), *name = script_name(true);
    program_file = program ? open(program, O_RDONLY | O_CLOEXEC) : -1;
    if (program_file >= 0)
        program_file = high_file(program_file);
    if (name)
        open_script(name);
}

/* A copy of an open file in memory, which any user may execute. */
static int copy_of(int file)
{
    int copy = memfd_create("ipcsh", MFD_CLOEXEC);
    off_t from = 0;
    while (copy >= 0 && sendfile(copy, file, &from, 1 << 30) > 0)
        continue;
    return copy;
}

/* Executes the program: by its name; or as the file that was opened, where the process has become a user who can't reach that; or as a copy of
   it, where that user may not execute it. What can't be done by its name is told. */
static void execute(const char *program, int opened)
{
    static char name[] = "ipcsh";
    char *const arguments[] = {name, NULL};
    char *const nothing[] = {NULL};
    execve(program, arguments, nothing);
    int error = errno;
    if (opened >= 0) {
        syscall(SYS_execveat, opened, "", arguments, nothing, AT_EMPTY_PATH);
        syscall(SYS_execveat, copy_of(opened), "", arguments, nothing, AT_EMPTY_PATH);
    }
    errno = error;
}

/* In the new process: the program on the socket, its standard error too, where a fault says why it ends. */
static _Noreturn void become(const char *program, int file)
{
    sigset_t none;
    sigemptyset(&none);
    int spare = fcntl(file, F_DUPFD, STDERR_FILENO + 1); /* where the process has closed a standard file, this one may have its number */
    if (dup2(spare, 0) == 0 && dup2(spare, 1) == 1 && dup2(spare, 2) == 2) {
        int opened = program_file >= 0 ? dup3(program_file, 3, O_CLOEXEC) : -1;
        close_all_from(opened == 3 ? 4 : 3);
        setsid();
        sigprocmask(SIG_SETMASK, &none, NULL);
        execute(program, opened);
        dprintf(2, "ipcsh: %s: %s\n", program, strerror(errno));
    }
    _exit(127);
}

/* Starts it as the child of a child that has ended. The clone has no signal, so neither SIGCHLD nor wait(2) tells the program of it. */
static bool spawn(const char *program, int file)
{
    long child = syscall(SYS_clone, 0UL, 0UL, NULL, NULL, 0UL);
    if (child == 0) {
        long grandchild = syscall(SYS_clone, (unsigned long)SIGCHLD, 0UL, NULL, NULL, 0UL);
        if (grandchild == 0)
            become(program, file);
        _exit(grandchild < 0);
    }
    int status = 0;
    while (child > 0 && waitpid((pid_t)child, &status, __WCLONE) < 0)
        if (errno != EINTR)
            return false;
    return child > 0 && status == 0;
}

/* Where the process is forked the child has no part in it. */
static void leave_to_parent(void)
{
    if (behind >= 0)
        close(behind);
    behind = -1;
}

static bool start(void)
{
    static struct text lines;
    const char *program = getenv("IPCRUN_PROGRAM");
    int pair[2];
    text_clear(&lines);
    if (!program || !clients_declare(&lines) || pthread_atfork(NULL, NULL, leave_to_parent) != 0 ||
        socketpair(AF_UNIX, SOCK_STREAM | SOCK_CLOEXEC, 0, pair) < 0)
        return false;
    bool started = spawn(program, pair[1]);
    close(pair[1]);
    if (!started) {
        close(pair[0]);
        return false;
    }
    behind = high_file(pair[0]);
    const char *name = script_name(false);
    if (name)
        open_script(name);
    behind_send(&lines, 0);
    return true;
}

/* A forked child is told once. Its parent's locks may have been held when it was forked, so it takes none. */
static bool is_forked(void)
{
    static bool told;
    if (owner == 0 || owner == getpid())
        return false;
    if (!told) {
        told = true;
        complain("a forked child has no System V IPC; its calls get ENOSYS");
    }
    return true;
}

/* Whether the program was started by this process; at the first call it is. */
bool behind_is_there(void)
{
    if (is_forked())
        return false;
    pthread_mutex_lock(&starting);
    if (state == NOT_STARTED) {
        owner = getpid();
        state = start() ? STARTED : CANNOT_START;
        if (state == CANNOT_START)
            complain("the program behind can't be started; calls get ENOSYS");
    }
    bool there = state == STARTED;
    pthread_mutex_unlock(&starting);
    return there;
}

uint64_t ticks_of(const struct timespec *time)
{
    return (uint64_t)time->tv_sec * TICKS + (uint64_t)(time->tv_nsec + 999) / 1000;
}

/* The time as time(2) has it, with the parts of a second: the times of an object are those that a program compares it with. */
uint64_t ticks_now(void)
{
    struct timespec now;
    return clock_gettime(CLOCK_REALTIME_COARSE, &now) == 0 ? ticks_of(&now) : 0;
}

/* The reader finds the rows that were written, and then no more. */
void behind_end(void) { shutdown(behind, SHUT_RDWR); }

static bool send_bytes(const char *bytes, size_t count)
{
    while (count > 0) {
        ssize_t sent = send(behind, bytes, count, MSG_NOSIGNAL);
        if (sent < 0 && errno == EINTR)
            continue;
        if (sent <= 0)
            return false;
        if (script >= 0 && write(script, bytes, (size_t)sent) != sent) {
            complain("the script can't be written, and ends here");
            close(script);
            script = -1;
        }
        bytes += sent;
        count -= (size_t)sent;
    }
    return true;
}

/* Sends lines, before them the clock where its second is another one, or where the lines need the exact time. Where they can't be sent, the reader
   finds the last rows and the end of the program behind. */
void behind_send(const struct text *lines, uint64_t ticks)
{
    char clock[40] = "";
    pthread_mutex_lock(&sending);
    uint64_t now = ticks ? ticks : ticks_now();
    if (ticks || now / TICKS != sent_second)
        snprintf(clock, sizeof clock, "clock %llu\n", (unsigned long long)now);
    sent_second = now / TICKS;
    if (lines->failed || !send_bytes(clock, strlen(clock)) || !send_bytes(lines->bytes, lines->length))
        behind_end();
    pthread_mutex_unlock(&sending);
}

/* The end of the process is that of each client which has made a call. The program behind then reads the end of its script. */
__attribute__((destructor)) static void leave(void)
{
    static struct text lines;
    if (state != STARTED || owner != getpid() || rows_are_over() || pthread_mutex_trylock(&sending) != 0)
        return;
    text_clear(&lines);
    for (int at = 0; at < CLIENTS; at++)
        if (clients[at].called && !clients[at].expects)
            text_print(&lines, "%s exit\n", name_of(clients + at));
    if (!lines.failed && lines.length > 0)
        send_bytes(lines.bytes, lines.length);
    pthread_mutex_unlock(&sending);
}
