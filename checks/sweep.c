/* Preloaded into a program of one thread that reads a file: refuses each allocation in turn. At each the run goes on in a copy of the
   process in which it fails, with as many after it as IN_A_ROW says in all, while the run itself waits for what comes of the copy, and
   then goes on as if nothing had been. What came of a copy is written to the file of the number RESULTS: a line of three numbers, the status
   as waitpid(2) has it, and how many bytes the copy and the run before it have written to standard output and to standard error; then these. */
#define _GNU_SOURCE
#include <dlfcn.h>
#include <errno.h>
#include <stdio.h>
#include <stdlib.h>
#include <string.h>
#include <sys/mman.h>
#include <sys/wait.h>
#include <unistd.h>

/* More than a script's run writes to either. A copy that takes longer than so many seconds is killed. */
enum { MOST = 1 << 21, LONGEST = 60 };

/* What a run has written to standard output and to standard error. */
struct written {
    size_t size[2];
    char bytes[2][MOST];
};

/* What the run has written, and its copy that is under way. */
static struct written *own, *shared;
static int is_copy;
/* In a copy: how many more allocations fail. */
static long left;

static ssize_t write_on(int file, const void *bytes, size_t size)
{
    static ssize_t (*next)(int, const void *, size_t);
    if (!next)
        next = (ssize_t (*)(int, const void *, size_t))dlsym(RTLD_NEXT, "write");
    return next(file, bytes, size);
}

static struct written *mapped(void)
{
    struct written *it = mmap(NULL, sizeof *it, PROT_READ | PROT_WRITE, MAP_SHARED | MAP_ANONYMOUS, -1, 0);
    if (it == MAP_FAILED)
        _exit(98);
    return it;
}

static void begin(void)
{
    if (own)
        return;
    own = mapped();
    shared = mapped();
}

ssize_t write(int file, const void *bytes, size_t size)
{
    if (file != 1 && file != 2)
        return write_on(file, bytes, size);
    begin();
    struct written *it = is_copy ? shared : own;
    if (size > MOST - it->size[file - 1])
        _exit(97);
    memcpy(it->bytes[file - 1] + it->size[file - 1], bytes, size);
    it->size[file - 1] += size;
    return is_copy ? (ssize_t)size : write_on(file, bytes, size);
}

/* A copy must not read what is then lacking to the run. */
ssize_t read(int file, void *buffer, size_t size)
{
    static ssize_t (*next)(int, void *, size_t);
    static off_t at;
    if (!next)
        next = (ssize_t (*)(int, void *, size_t))dlsym(RTLD_NEXT, "read");
    if (file != 0)
        return next(file, buffer, size);
    ssize_t got = pread(0, buffer, size, at);
    if (got > 0)
        at += got;
    return got;
}

static void tell(const char *bytes, size_t size)
{
    while (size > 0) {
        ssize_t count = write_on(atoi(getenv("RESULTS")), bytes, size);
        if (count <= 0)
            _exit(96);
        bytes += count;
        size -= (size_t)count;
    }
}

static void tell_of(pid_t copy)
{
    char head[100];
    int status;
    if (waitpid(copy, &status, 0) != copy)
        _exit(95);
    tell(head, (size_t)snprintf(head, sizeof head, "%d %zu %zu\n", status, shared->size[0], shared->size[1]));
    tell(shared->bytes[0], shared->size[0]);
    tell(shared->bytes[1], shared->size[1]);
}

/* Whether an allocation fails: in a copy that begins with it, and in those that follow there. */
static int fails(void)
{
    if (is_copy)
        return left > 0 && left-- > 0;
    begin();
    for (int file = 0; file < 2; file++) {
        shared->size[file] = own->size[file];
        memcpy(shared->bytes[file], own->bytes[file], own->size[file]);
    }
    pid_t copy = fork();
    if (copy < 0)
        _exit(94);
    if (copy > 0) {
        tell_of(copy);
        return 0;
    }
    alarm(LONGEST);
    is_copy = 1;
    left = atol(getenv("IN_A_ROW")) - 1;
    return 1;
}

void *malloc(size_t size)
{
    static void *(*next)(size_t);
    if (!next)
        next = (void *(*)(size_t))dlsym(RTLD_NEXT, "malloc");
    if (!fails())
        return next(size);
    errno = ENOMEM;
    return NULL;
}

void *realloc(void *old, size_t size)
{
    static void *(*next)(void *, size_t);
    if (!next)
        next = (void *(*)(void *, size_t))dlsym(RTLD_NEXT, "realloc");
    if (!fails())
        return next(old, size);
    errno = ENOMEM;
    return NULL;
}
