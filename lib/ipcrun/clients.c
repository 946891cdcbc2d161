/* The clients of the script, and the credentials of the process.

   The first client makes the calls that never wait, one at a time. The others make those that may wait: each thread has one of its own as its
   home, and takes another one where its home is in use. */
#define _GNU_SOURCE
#include "ipcrun.h"

#include <linux/capability.h>
#include <string.h>
#include <sys/syscall.h>
#include <unistd.h>

enum { NAP = 100000 };

static pthread_mutex_t process_lock = PTHREAD_MUTEX_INITIALIZER;
static pthread_mutex_t pool_lock = PTHREAD_MUTEX_INITIALIZER;
static unsigned homes; /* how many threads have one; under pool_lock */
static __thread unsigned home;
static unsigned first_capabilities;

struct client clients[CLIENTS] = {[0 ... CLIENTS - 1] = {.wake = -1}};

int number_of(const struct client *client) { return (int)(client - clients); }

#define EIGHT(letter) {letter "0", letter "1", letter "2", letter "3", letter "4", letter "5", letter "6", letter "7"}

const char *name_of(const struct client *client)
{
    static const char names[8][8][3] = {EIGHT("a"), EIGHT("b"), EIGHT("c"), EIGHT("d"), EIGHT("e"), EIGHT("f"), EIGHT("g"), EIGHT("h")};
    return names[number_of(client) / 8][number_of(client) % 8];
}

/* The client whose name begins this text, and is followed by a blank. */
struct client *client_named(const char *name)
{
    if (name[0] < 'a' || name[0] > 'h' || name[1] < '0' || name[1] > '7' || name[2] != ' ')
        return NULL;
    return clients + (name[0] - 'a') * 8 + (name[1] - '0');
}

/* The capabilities that System V IPC asks for, as bits of the first word. */
static unsigned capabilities_now(void)
{
    struct __user_cap_header_struct head = {.version = _LINUX_CAPABILITY_VERSION_3};
    struct __user_cap_data_struct words[2] = {{0}};
    if (syscall(SYS_capget, &head, words) < 0)
        return 0;
    return words[0].effective & (1U << CAP_IPC_OWNER | 1U << CAP_SYS_ADMIN | 1U << CAP_SYS_RESOURCE);
}

/* The credentials of the process as they are. Where the script can't have them the answer is false, and a line says why. */
bool creds_now(struct creds *creds)
{
    static bool told;
    memset(creds, 0, sizeof *creds);
    creds->uid = geteuid();
    creds->gid = getegid();
    creds->count = getgroups(GROUPS, creds->groups);
    const char *why = creds->count < 0                         ? "the process has more than 32 supplementary groups"
                      : capabilities_now() != first_capabilities ? "the capabilities of the process have changed"
                                                                 : NULL;
    if (why && !told) {
        told = true;
        complain("%s; calls get ENOSYS", why);
    }
    return !why;
}

static void add_groups(struct text *line, const struct creds *creds)
{
    for (int at = 0; at < creds->count; at++)
        text_print(line, "%s%u", at ? "," : " groups=", creds->groups[at]);
}

/* The limits that Linux has by default where the script's are others, and the clients. All may change their users and groups: whether the process
   may, the kernel has decided when a change is seen. */
bool clients_declare(struct text *lines)
{
    struct creds creds;
    first_capabilities = capabilities_now();
    if (!creds_now(&creds))
        return false;
    text_print(lines, "limit queues 32000\nlimit sets 32000\nlimit segments 4096\nlimit shmmax 1073741824\n");
    for (struct client *client = clients; client < clients + CLIENTS; client++) {
        client->told = creds;
        text_print(lines, "client %s %u %u", name_of(client), creds.uid, creds.gid);
        add_groups(lines, &creds);
        text_print(lines, " caps=SETUID,SETGID%s%s%s\n", first_capabilities & 1U << CAP_IPC_OWNER ? ",IPC_OWNER" : "",
                   first_capabilities & 1U << CAP_SYS_ADMIN ? ",SYS_ADMIN" : "",
                   first_capabilities & 1U << CAP_SYS_RESOURCE ? ",SYS_RESOURCE" : "");
    }
    return !lines->failed;
}

/* The client of the calls that never wait, for one thread at a time. */
struct client *process_client(void)
{
    pthread_mutex_lock(&process_lock);
    return clients + PROCESS;
}

/* The home of this thread where it is free, or another one that is, or NULL. */
static struct client *take_free(void)
{
    struct client *found = NULL;
    pthread_mutex_lock(&pool_lock);
    if (home == 0)
        home = 1 + homes++ % (CLIENTS - 1);
    if (!clients[home].taken)
        found = clients + home;
    for (int at = CLIENTS - 1; !found && at > PROCESS; at--)
        if (!clients[at].taken)
            found = clients + at;
    if (found)
        found->taken = true;
    pthread_mutex_unlock(&pool_lock);
    return found;
}

/* A client for a call that may wait, or NULL where all of them wait. One that doesn't is soon free. */
static struct client *waiting_client(void)
{
    struct client *found;
    while (!(found = take_free()) && !rows_all_wait() && !rows_are_over())
        nanosleep(&(struct timespec){.tv_nsec = NAP}, NULL);
    return found;
}

/* The client of a call: for one that may wait the process's only where all others wait, also when that is free at last. */
struct client *take_client(bool may_wait)
{
    struct client *found = may_wait ? waiting_client() : NULL;
    while (!found) {
        found = process_client();
        if (!may_wait || rows_all_wait() || rows_are_over())
            return found;
        client_give_back(found);
        found = waiting_client();
    }
    return found;
}

void client_give_back(struct client *client)
{
    if (client == clients + PROCESS) {
        pthread_mutex_unlock(&process_lock);
        return;
    }
    pthread_mutex_lock(&pool_lock);
    client->taken = false;
    pthread_mutex_unlock(&pool_lock);
}

/* Lets the client take on these credentials, where it has others. */
bool client_becomes(struct client *client, const struct creds *creds)
{
    static const struct wait always;
    if (memcmp(&client->told, creds, sizeof *creds) == 0)
        return true;
    text_clear(&client->line);
    text_print(&client->line, "%s setcreds %u %u", name_of(client), creds->uid, creds->gid);
    add_groups(&client->line, creds);
    text_print(&client->line, "%s\n", creds->count ? "" : " groups=-");
    rows_expect(client);
    behind_send(&client->line, 0);
    rows_await(client, &always);
    client->told = *creds;
    return !rows_are_over() && !client->row.failed && strcmp(client->row.bytes, "ok") == 0;
}
