/* Memory stays flat: calls with texts, as many as the first word says, by two clients in one thread, whose processes end and begin anew between
 * them. The program ends with at most 1 MiB more memory than after the first ten thousand calls. With a second word the service keeps its journal, which is read every thousand calls, and
 * written to the file of this name. */
#include "ipcsh.h"

#include <stdio.h>
#include <stdlib.h>
#include <unistd.h>

enum { FIRST = 10000, A_PART = 1000, A_ROUND = 8, MORE = 1 << 20 };

static void must(int code, const char *what)
{
    if (!code)
        return;
    fprintf(stderr, "%s: %d\n", what, code);
    exit(1);
}

/* What the process has in memory, in bytes: proc(5), statm. */
static long in_memory(void)
{
    long size = 0, resident = 0;
    FILE *statm = fopen("/proc/self/statm", "r");
    if (!statm || fscanf(statm, "%ld %ld", &size, &resident) != 2)
        exit(1);
    fclose(statm);
    return resident * sysconf(_SC_PAGESIZE);
}

/* Four calls: a message of other lengths each time, its receipt by the other client, a lock that is taken and given back. */
static void four_calls(ipcsh *alice, ipcsh *bob, unsigned long n)
{
    static char text[256];
    struct ipcsh_reply reply;
    struct ipcsh_semop take = {0, 1, 0}, give = {0, -1, 0};
    must(ipcsh_msgsnd(alice, n, 0, 1, text, n % 256, 0, &reply), "msgsnd");
    must(ipcsh_msgrcv(bob, n, 0, text, sizeof text, 0, 0, &reply), "msgrcv");
    must(ipcsh_semop(alice, n, 0, &take, 1, &reply), "semop");
    must(ipcsh_semop(bob, n, 0, &give, 1, &reply), "semop");
}

/* Two calls: the client's process ends, and another begins, by turns with one of two numbers. */
static void begin_anew(ipcsh *client, unsigned long n, uint32_t pid)
{
    const uint32_t groups[2] = {20, 30};
    const struct ipcsh_identity creds = {.uid = 100, .gid = 10, .ruid = 100, .rgid = 10, .suid = 100, .sgid = 10, .groups = groups, .ngroups = 2};
    struct ipcsh_reply reply;
    must(ipcsh_exit(client, n, &reply), "exit");
    must(ipcsh_begin(client, n, pid + n / A_ROUND % 2, &creds, &reply), "begin");
}

static void write_journal(ipcsh *reader, FILE *file)
{
    static char text[65536];
    size_t len = 0;
    do {
        must(ipcsh_read_journal(reader, text, sizeof text, &len), "read_journal");
        if (fwrite(text, 1, len, file) != len)
            exit(1);
    } while (len);
}

/* Makes the calls, and returns how many bytes more there are in memory at the end than after the first ten thousand. */
static long grown(ipcsh *const handles[2], unsigned long calls, FILE *file)
{
    struct ipcsh_reply reply;
    uint32_t id;
    long first = 0;
    must(ipcsh_msgget(handles[0], 0, 1, IPCSH_CREAT | 0600, &reply, &id), "msgget");
    must(ipcsh_semget(handles[0], 0, 1, 1, IPCSH_CREAT | 0600, &reply, &id), "semget");
    for (unsigned long n = A_ROUND; n <= calls; n += A_ROUND) {
        four_calls(handles[0], handles[1], n);
        begin_anew(handles[0], n, 10);
        begin_anew(handles[1], n, 20);
        if (file && n % A_PART == 0)
            write_journal(handles[0], file);
        if (n == FIRST)
            first = in_memory();
    }
    if (file)
        write_journal(handles[0], file);
    return in_memory() - first;
}

int main(int argc, char **argv)
{
    const struct ipcsh_limits limits = IPCSH_DEFAULT_LIMITS;
    const struct ipcsh_client clients[] = {{.uid = 100, .gid = 10}, {.uid = 100, .gid = 10}};
    unsigned long calls = argc > 1 ? strtoul(argv[1], NULL, 10) : FIRST;
    FILE *file = argc > 2 ? fopen(argv[2], "w") : NULL;
    ipcsh *handles[2];
    must((file ? ipcsh_open_with_journal : ipcsh_open)(&limits, clients, 2, handles), "open");
    long more = grown(handles, calls, file);
    ipcsh_close(handles[0]);
    ipcsh_close(handles[1]);
    if (file && fclose(file))
        return 1;
    if (more > MORE) {
        fprintf(stderr, "%ld bytes more than after %d calls\n", more, FIRST);
        return 1;
    }
    puts("flat");
    return 0;
}
