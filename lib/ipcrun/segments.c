/* Shared memory segments: shmget(2), shmop(2), shmctl(2).

   The bytes of a segment come from the program behind when the process attaches it, and what has changed of them goes there with each shmdt. Between,
   all attachments of the segment are mappings of the same pages, so its threads see each other's writes. */
#define _GNU_SOURCE
#include "ipcrun.h"

#include <errno.h>
#include <stdlib.h>
#include <string.h>
#include <sys/mman.h>
#include <sys/shm.h>
#include <unistd.h>

enum { READ_PIECE = 1 << 18, WRITE_PIECE = 1 << 14, GAP = 16 };

/* A segment that is attached: its pages, and its bytes as the program behind has them. */
struct pages {
    struct pages *next;
    int id;
    int uses;
    size_t size;
    size_t room; /* the size in whole pages */
    unsigned char *bytes;
    unsigned char *known;
};

struct attachment {
    struct attachment *next;
    void *address;
    long number;
    bool read_only;
    struct pages *pages;
};

/* Under the lock of the process's client, which makes all calls of this file. */
static struct pages *segments;
static struct attachment *attachments;

FOR_PROGRAMS int shmget(key_t key, size_t size, int flags)
{
    int id = (int)simple_call("shmget %u %zu 0%o", (unsigned)key, size, (unsigned)flags);
    if (id >= 0)
        size_note(SEGMENT, id, size);
    return id;
}

static void *new_pages(size_t room, int flags)
{
    void *pages = mmap(NULL, room, PROT_READ | PROT_WRITE, flags | MAP_ANONYMOUS, -1, 0);
    return pages == MAP_FAILED ? NULL : pages;
}

/* Copies the bytes in, by an attachment. */
static bool copy_in(struct call *call, long number, struct pages *pages)
{
    for (size_t at = 0; at < pages->size; at += READ_PIECE) {
        size_t piece = pages->size - at < READ_PIECE ? pages->size - at : READ_PIECE;
        const char *row = call_line(call, "shmread %ld %zu %zu", number, at, piece);
        const char *hex = row ? after(call, row, "bytes x:") : NULL;
        if (!hex || bytes_of_hex(hex, pages->known + at, piece) != piece)
            return false;
    }
    memcpy(pages->bytes, pages->known, pages->size);
    return true;
}

static void drop_pages(struct pages *pages)
{
    if (--pages->uses > 0)
        return;
    for (struct pages **at = &segments; *at; at = &(*at)->next)
        if (*at == pages) {
            *at = pages->next;
            break;
        }
    if (pages->bytes)
        munmap(pages->bytes, pages->room);
    if (pages->known)
        munmap(pages->known, pages->room);
    free(pages);
}

/* The pages of a segment that has been attached under this number. */
static struct pages *pages_of(struct call *call, int id, long number)
{
    for (struct pages *pages = segments; pages; pages = pages->next)
        if (pages->id == id) {
            pages->uses++;
            return pages;
        }
    struct pages *pages = calloc(1, sizeof *pages);
    if (!pages)
        return NULL;
    const char *row = call_line(call, "stat m %u", (unsigned)id);
    size_t page = (size_t)sysconf(_SC_PAGESIZE);
    pages->id = id;
    pages->uses = 1;
    pages->size = row ? field_of(row, "size", 10) : size_of(SEGMENT, id);
    pages->room = (pages->size + page - 1) / page * page;
    pages->bytes = new_pages(pages->room, MAP_SHARED);
    pages->known = new_pages(pages->room, MAP_PRIVATE);
    pages->next = segments;
    segments = pages;
    if (!pages->bytes || !pages->known || !copy_in(call, number, pages)) {
        drop_pages(pages);
        return NULL;
    }
    return pages;
}

/* Where a mapping is to be: NULL, anywhere; or -1, which can't be, for the reason in `error`. */
static void *place_of(struct call *call, const void *address, size_t room, int flags)
{
    uintptr_t at = (uintptr_t)address;
    uintptr_t page = (uintptr_t)sysconf(_SC_PAGESIZE);
    if (flags & SHM_RND)
        at -= at % page;
    if (at % page != 0 || (!at && flags & SHM_REMAP)) {
        call->error = EINVAL;
        return MAP_FAILED;
    }
    if (!at || flags & SHM_REMAP)
        return (void *)at;
    void *reserved = mmap((void *)at, room, PROT_NONE, MAP_PRIVATE | MAP_ANONYMOUS | MAP_FIXED_NOREPLACE, -1, 0);
    if (reserved != (void *)at) {
        if (reserved != MAP_FAILED)
            munmap(reserved, room);
        call->error = EINVAL;
        return MAP_FAILED;
    }
    return reserved;
}

/* Another mapping of the pages. */
static void *map(struct call *call, const struct pages *pages, const void *address, int flags)
{
    int rights = PROT_READ | (flags & SHM_RDONLY ? 0 : PROT_WRITE) | (flags & SHM_EXEC ? PROT_EXEC : 0);
    void *place = place_of(call, address, pages->room, flags);
    if (place == MAP_FAILED)
        return NULL;
    void *mapped = place ? mremap(pages->bytes, 0, pages->room, MREMAP_MAYMOVE | MREMAP_FIXED, place)
                         : mremap(pages->bytes, 0, pages->room, MREMAP_MAYMOVE);
    if (mapped == MAP_FAILED || mprotect(mapped, pages->room, rights) < 0) {
        call->error = ENOMEM;
        return NULL;
    }
    return mapped;
}

/* How many bytes from here on are to be written: up to a gap of some that haven't changed. */
static size_t changed_from(const struct pages *pages, size_t from)
{
    size_t end = from;
    for (size_t at = from; at < pages->size && at - from < WRITE_PIECE && at < end + GAP; at++)
        if (pages->bytes[at] != pages->known[at])
            end = at + 1;
    return end - from;
}

/* Writes what has changed, by an attachment. */
static bool copy_out(struct call *call, long number, struct pages *pages)
{
    static unsigned char changed[WRITE_PIECE];
    size_t count;
    for (size_t at = 0; at < pages->size; at += count ? count : 1) {
        count = changed_from(pages, at);
        if (!count)
            continue;
        memcpy(changed, pages->bytes + at, count);
        text_clear(&call->client->line);
        call_say(call, "%s shmwrite %ld %zu ", name_of(call->client), number, at);
        text_bytes(&call->client->line, changed, count);
        if (!call_make(call))
            return false;
        memcpy(pages->known + at, changed, count);
    }
    return true;
}

static struct attachment *take_attachment(const void *address)
{
    for (struct attachment **at = &attachments; *at; at = &(*at)->next)
        if ((*at)->address == address) {
            struct attachment *found = *at;
            *at = found->next;
            return found;
        }
    return NULL;
}

/* Ends an attachment that was taken out of the list: its bytes go to the program behind. */
static void detach(struct call *call, struct attachment *found)
{
    if (!found->read_only)
        copy_out(call, found->number, found->pages);
    call_line(call, "shmdt %ld", found->number);
    drop_pages(found->pages);
    free(found);
}

/* Ends those that SHM_REMAP has mapped over. */
static void detach_replaced(struct call *call, const char *from, size_t room)
{
    for (struct attachment **at = &attachments; *at;) {
        struct attachment *it = *at;
        if ((char *)it->address < from || (char *)it->address + it->pages->room > from + room) {
            at = &it->next;
            continue;
        }
        *at = it->next;
        detach(call, it);
    }
}

/* What shmat does when the segment has been attached under a number. */
static bool make_attachment(struct call *call, int id, struct attachment *made, const void *address, int flags)
{
    made->read_only = flags & SHM_RDONLY;
    made->pages = pages_of(call, id, made->number);
    if (!made->pages) {
        call->error = call->error ? call->error : ENOMEM;
        return false;
    }
    made->address = map(call, made->pages, address, flags);
    if (!made->address) {
        drop_pages(made->pages);
        return false;
    }
    if (flags & SHM_REMAP)
        detach_replaced(call, made->address, made->pages->room);
    call->error = 0;
    made->next = attachments;
    attachments = made;
    return true;
}

FOR_PROGRAMS void *shmat(int id, const void *address, int flags)
{
    struct call call;
    struct attachment *made = calloc(1, sizeof *made);
    if (!made || !call_begin(&call, NEVER_WAITS)) {
        free(made);
        return (void *)-1;
    }
    const char *row = call_line(&call, "shmat %u 0%o", (unsigned)id, (unsigned)flags & SHM_RDONLY);
    made->number = row ? strtol(row + strlen("attached"), NULL, 10) : 0;
    bool done = row && make_attachment(&call, id, made, address, flags);
    void *mapped = done ? made->address : (void *)-1;
    if (row && !done) {
        int error = call.error;
        call_line(&call, "shmdt %ld", made->number);
        call.error = error;
    }
    call_end(&call, 0);
    if (!done)
        free(made);
    return mapped;
}

FOR_PROGRAMS int shmdt(const void *address)
{
    struct call call;
    if (!call_begin(&call, NEVER_WAITS))
        return -1;
    struct attachment *found = take_attachment(address);
    if (found) {
        munmap(found->address, found->pages->room);
        detach(&call, found);
    } else {
        call.error = EINVAL;
    }
    return (int)call_end(&call, 0);
}

static int stat_segment(int id, struct shmid_ds *status)
{
    struct call call;
    if (!call_begin(&call, NEVER_WAITS))
        return -1;
    call_say(&call, "stat m %u", (unsigned)id);
    const char *row = call_make(&call);
    if (row) {
        memset(status, 0, sizeof *status);
        perm_of(row, id, &status->shm_perm);
        status->shm_segsz = field_of(row, "size", 10);
        status->shm_atime = time_of(row, "atime");
        status->shm_dtime = time_of(row, "dtime");
        status->shm_ctime = time_of(row, "ctime");
        status->shm_cpid = pid_of(row, "cpid");
        status->shm_lpid = pid_of(row, "lpid");
        status->shm_nattch = field_of(row, "nattch", 10);
    }
    return (int)call_end(&call, 0);
}

static int set_segment(int id, const struct shmid_ds *with)
{
    if (with->shm_perm.uid == (uid_t)-1 || with->shm_perm.gid == (gid_t)-1)
        return (int)fail_with(EINVAL);
    return (int)simple_call("set m %u %u %u 0%o", (unsigned)id, with->shm_perm.uid, with->shm_perm.gid, with->shm_perm.mode & 0777);
}

FOR_PROGRAMS int shmctl(int id, int command, struct shmid_ds *status)
{
    switch (command) {
    case IPC_RMID:
        return (int)simple_call("rmid m %u", (unsigned)id);
    case IPC_SET:
        return status ? set_segment(id, status) : (int)fail_with(EFAULT);
    case IPC_STAT:
        return status ? stat_segment(id, status) : (int)fail_with(EFAULT);
    case SHM_LOCK:
    case SHM_UNLOCK:
    case IPC_INFO:
    case SHM_INFO:
    case SHM_STAT:
    case SHM_STAT_ANY:
        return (int)fail_with(ENOSYS);
    default:
        return (int)fail_with(EINVAL);
    }
}
