/* Preloaded into a program. Reads of standard input give PIECE bytes at most, where that is set, and the one whose number, from 1, is
   in FAIL_READ fails. The write to standard output whose number is in AT_WRITE fails, takes one byte or none, by what HOW says: fail,
   one or none. What was done is told on standard error. */
#define _GNU_SOURCE
#include <dlfcn.h>
#include <errno.h>
#include <stddef.h>
#include <stdlib.h>
#include <string.h>
#include <unistd.h>

typedef ssize_t (*reader)(int, void *, size_t);
typedef ssize_t (*writer)(int, const void *, size_t);

static long number_in(const char *name)
{
    const char *number = getenv(name);
    return number ? atol(number) : 0;
}

static writer next_write(void)
{
    static writer next;
    if (!next)
        next = (writer)dlsym(RTLD_NEXT, "write");
    return next;
}

static void tell(void)
{
    if (next_write()(2, "stopped\n", 8) != 8)
        _exit(99);
}

ssize_t read(int file, void *buffer, size_t size)
{
    static reader next;
    static long calls;
    long piece = number_in("PIECE");
    if (!next)
        next = (reader)dlsym(RTLD_NEXT, "read");
    if (file != 0)
        return next(file, buffer, size);
    if (++calls == number_in("FAIL_READ")) {
        tell();
        errno = EIO;
        return -1;
    }
    return next(file, buffer, piece && (size_t)piece < size ? (size_t)piece : size);
}

ssize_t write(int file, const void *buffer, size_t size)
{
    static long calls;
    const char *how = getenv("HOW");
    if (file != 1 || ++calls != number_in("AT_WRITE") || !how)
        return next_write()(file, buffer, size);
    tell();
    if (!strcmp(how, "none"))
        return 0;
    if (!strcmp(how, "one"))
        return next_write()(file, buffer, size < 1 ? size : 1);
    errno = EPIPE;
    return -1;
}
