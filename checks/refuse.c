/* Preloaded into a program: refuses the allocation whose number, from 1, is in REFUSE, with as many after it as IN_A_ROW says, else it
   alone, and after these none; or with EACH=N each Nth one. With BETWEEN=WORD those alone are counted that come between the lines
   'WORD begins' and 'WORD ends' on standard error, and behind the second of them how many they were is written there. */
#define _GNU_SOURCE
#include <dlfcn.h>
#include <errno.h>
#include <stddef.h>
#include <stdio.h>
#include <stdlib.h>
#include <string.h>
#include <unistd.h>

static long left = -1;
static long each;
static long row;
static long counted;
static int closed = -1;

static long number_in(const char *name)
{
    const char *number = getenv(name);
    return number ? atol(number) : 0;
}

static void begin(void)
{
    each = number_in("EACH");
    left = each ? each : number_in("REFUSE");
    row = number_in("IN_A_ROW");
}

typedef ssize_t (*writer)(int, const void *, size_t);

static writer next_write(void)
{
    static writer next;
    if (!next)
        next = (writer)dlsym(RTLD_NEXT, "write");
    return next;
}

/* Whether what is written is the word of BETWEEN, a blank, and this. */
static int is_line(const char *bytes, size_t size, const char *end)
{
    const char *word = getenv("BETWEEN");
    size_t length = strlen(word);
    return size > length + 1 + strlen(end) && !memcmp(bytes, word, length) && !memcmp(bytes + length + 1, end, strlen(end));
}

static void say(const char *line)
{
    if (next_write()(2, line, strlen(line)) != (ssize_t)strlen(line))
        _exit(99);
}

ssize_t write(int file, const void *bytes, size_t size)
{
    char line[40];
    ssize_t written;
    int is_own = file == 2 && getenv("BETWEEN");
    int ends = is_own && is_line(bytes, size, "ends");
    if (ends)
        closed = 1;
    written = next_write()(file, bytes, size);
    if (ends) {
        snprintf(line, sizeof line, "allocations %ld\n", counted);
        say(line);
    } else if (is_own && is_line(bytes, size, "begins")) {
        counted = 0;
        closed = 0;
    }
    return written;
}

static int refused(void)
{
    if (left < 0)
        begin();
    if (closed < 0)
        closed = getenv("BETWEEN") != NULL;
    if (closed)
        return 0;
    counted++;
    if (left == 0 || --left != 0)
        return 0;
    left = each ? each : --row > 0;
    say("refused\n");
    errno = ENOMEM;
    return 1;
}

void *malloc(size_t size)
{
    static void *(*next)(size_t);
    if (!next)
        next = (void *(*)(size_t))dlsym(RTLD_NEXT, "malloc");
    return refused() ? NULL : next(size);
}

void *realloc(void *old, size_t size)
{
    static void *(*next)(void *, size_t);
    if (!next)
        next = (void *(*)(void *, size_t))dlsym(RTLD_NEXT, "realloc");
    return refused() ? NULL : next(old, size);
}
