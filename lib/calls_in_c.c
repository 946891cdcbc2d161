/* Makes calls of one client of a service through the library for C, whose instructions `./bench c` counts beside those of the same calls in
 * Rattle (crates/member_bench). Its words are how many calls it makes, and which. */
#include <ipcsh.h>
#include <stdlib.h>
#include <string.h>

enum { KEY = 5 };

static ipcsh *client;
static struct ipcsh_reply reply;

/* A call that isn't answered so ends the program. */
static void must(int code, int wanted)
{
    if (code != wanted)
        exit(1);
}

static uint32_t queue(uint32_t mode)
{
    uint32_t id;
    must(ipcsh_msgget(client, 0, KEY, IPCSH_CREAT | mode, &reply, &id), 0);
    return id;
}

static void get(long calls)
{
    uint32_t id;
    queue(0600);
    while (calls--)
        must(ipcsh_msgget(client, 0, KEY, 0600, &reply, &id), 0);
}

/* Asks for a message of a queue that denies it, 13 being EACCES. */
static void denied(long calls)
{
    char text[64];
    uint32_t id = queue(0);
    while (calls--)
        must(ipcsh_msgrcv(client, 0, id, text, sizeof text, 0, IPCSH_NOWAIT, &reply), 13);
}

/* Sends a text of so many bytes and receives it. */
static void message(long calls, size_t bytes)
{
    char text[64];
    uint32_t id = queue(0600);
    memset(text, 'a', sizeof text);
    while (calls--) {
        must(ipcsh_msgsnd(client, 0, id, 1, text, bytes, IPCSH_NOWAIT, &reply), 0);
        must(ipcsh_msgrcv(client, 0, id, text, sizeof text, 0, IPCSH_NOWAIT, &reply), 0);
    }
}

/* Adds 1 to a semaphore. */
static void semop(long calls)
{
    static const struct ipcsh_semop op = { 0, 1, 0 };
    uint32_t id;
    must(ipcsh_semget(client, 0, KEY, 1, IPCSH_CREAT | 0600, &reply, &id), 0);
    while (calls--)
        must(ipcsh_semop(client, 0, id, &op, 1, &reply), 0);
}

int main(int argc, char **argv)
{
    static const struct ipcsh_limits limits = IPCSH_DEFAULT_LIMITS;
    static const struct ipcsh_client user = { 100, 10, 0, 0, { 0 } };
    long calls = argc > 1 ? atol(argv[1]) : 1;
    const char *which = argc > 2 ? argv[2] : "get";
    must(ipcsh_open(&limits, &user, 1, &client), 0);
    if (!strcmp(which, "get"))
        get(calls);
    else if (!strcmp(which, "denied"))
        denied(calls);
    else if (!strcmp(which, "message-0"))
        message(calls, 0);
    else if (!strcmp(which, "message-64"))
        message(calls, 64);
    else if (!strcmp(which, "semop"))
        semop(calls);
    else
        return 64;
    ipcsh_close(client);
    return 0;
}
