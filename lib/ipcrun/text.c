/* Growing texts, hexadecimal bytes, the fields of a row. */
#define _GNU_SOURCE
#include "ipcrun.h"

#include <stdarg.h>
#include <stdio.h>
#include <stdlib.h>
#include <string.h>
#include <sys/mman.h>
#include <unistd.h>

void text_clear(struct text *text)
{
    text->length = 0;
    text->failed = false;
}

/* Makes room for more bytes and the 0 after them. */
bool text_reserve(struct text *text, size_t more)
{
    size_t need = text->length + more + 1;
    if (need <= text->room)
        return true;
    size_t room = text->room ? text->room : 4096;
    while (room < need)
        room *= 2;
    void *bytes = text->room ? mremap(text->bytes, text->room, room, MREMAP_MAYMOVE)
                             : mmap(NULL, room, PROT_READ | PROT_WRITE, MAP_PRIVATE | MAP_ANONYMOUS, -1, 0);
    if (bytes == MAP_FAILED) {
        text->failed = true;
        return false;
    }
    text->bytes = bytes;
    text->room = room;
    return true;
}

void text_add(struct text *text, const char *bytes, size_t count)
{
    if (!text_reserve(text, count))
        return;
    memcpy(text->bytes + text->length, bytes, count);
    text->length += count;
    text->bytes[text->length] = 0;
}

/* Takes bytes away from its front. */
void text_drop(struct text *text, size_t count)
{
    text->length -= count;
    memmove(text->bytes, text->bytes + count, text->length);
}

void text_print(struct text *text, const char *format, ...)
{
    char some[256];
    va_list list;
    va_start(list, format);
    int count = vsnprintf(some, sizeof some, format, list);
    va_end(list);
    /* What is printed here is words and numbers; whoever prints more adds the texts in it by text_add. */
    if (count < 0 || (size_t)count >= sizeof some)
        text->failed = true;
    else
        text_add(text, some, (size_t)count);
}

void text_hex(struct text *text, const unsigned char *bytes, size_t count)
{
    static const char digits[] = "0123456789abcdef";
    if (!text_reserve(text, 2 * count))
        return;
    char *to = text->bytes + text->length;
    for (size_t at = 0; at < count; at++) {
        *to++ = digits[bytes[at] >> 4];
        *to++ = digits[bytes[at] & 15];
    }
    *to = 0;
    text->length += 2 * count;
}

/* The bytes as the text of a line: as they are where each is a printing character and no blank, which is the shorter form. */
void text_bytes(struct text *text, const unsigned char *bytes, size_t count)
{
    size_t plain = 0;
    while (plain < count && bytes[plain] > ' ' && bytes[plain] < 127)
        plain++;
    text_add(text, plain == count ? "t:" : "x:", 2);
    if (plain == count)
        text_add(text, (const char *)bytes, count);
    else
        text_hex(text, bytes, count);
}

static int digit_of(char it)
{
    if (it >= '0' && it <= '9')
        return it - '0';
    return it >= 'a' && it <= 'f' ? it - 'a' + 10 : -1;
}

/* The bytes that hexadecimal digits stand for, at most so many, and how many there are. */
size_t bytes_of_hex(const char *hex, unsigned char *bytes, size_t most)
{
    size_t count = 0;
    for (; count < most && digit_of(hex[0]) >= 0 && digit_of(hex[1]) >= 0; hex += 2)
        bytes[count++] = (unsigned char)(digit_of(hex[0]) * 16 + digit_of(hex[1]));
    return count;
}

/* The number that follows this name in a row. */
unsigned long field_of(const char *row, const char *name, int base)
{
    size_t length = strlen(name);
    for (const char *at = row; (at = strstr(at, name)); at += length)
        if (at > row && at[-1] == ' ' && at[length] == ' ')
            return strtoul(at + length + 1, NULL, base);
    return 0;
}

void perm_of(const char *row, int id, struct ipc_perm *perm)
{
    perm->__key = (key_t)field_of(row, "key", 16);
    perm->uid = (uid_t)field_of(row, "uid", 10);
    perm->gid = (gid_t)field_of(row, "gid", 10);
    perm->cuid = (uid_t)field_of(row, "cuid", 10);
    perm->cgid = (gid_t)field_of(row, "cgid", 10);
    perm->mode = (__typeof__(perm->mode))field_of(row, "mode", 8);
    perm->__seq = (unsigned short)(id / SLOTS);
}

/* Every client of the script is a thread of this process. */
pid_t pid_of(const char *row, const char *name)
{
    return field_of(row, name, 10) ? getpid() : 0;
}

time_t time_of(const char *row, const char *name)
{
    return (time_t)(field_of(row, name, 10) / TICKS);
}
