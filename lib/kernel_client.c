/* A client of a script on the kernel's own System V IPC: a process with the client's users, groups and capabilities. It makes the calls that it
   is told on standard input, one a line, and answers each with a line: what the system call returned, errno, and what it handed out.

       kernel_client USER GROUP SAVED_USER SAVED_GROUP GROUPS CAPABILITIES

   GROUPS are numbers with commas between them, or -; CAPABILITIES is a mask in hexadecimal, as /proc/PID/status has it. In a line numbers
   are decimal and texts hexadecimal. A process or a thread that a client begins is told its calls by two named pipes, PATH.in and PATH.out,
   which answer first with the numbers of the process and of the thread. Each thread has credentials of its own: so they are changed by
   system calls, and not by the library's functions, which change those of all threads. */
#define _GNU_SOURCE
#include <errno.h>
#include <fcntl.h>
#include <grp.h>
#include <linux/capability.h>
#include <linux/securebits.h>
#include <pthread.h>
#include <signal.h>
#include <stdio.h>
#include <stdlib.h>
#include <string.h>
#include <sys/msg.h>
#include <sys/prctl.h>
#include <sys/sem.h>
#include <sys/shm.h>
#include <sys/syscall.h>
#include <time.h>
#include <unistd.h>

enum { TEXT_MOST = 1 << 17, OPS_MOST = 1 << 12, VALUES_MOST = 1 << 16, ATTACHED_MOST = 1 << 13, GROUPS_MOST = 64, PATH_MOST = 256, THREADS_MOST = 64 };

/* semctl(2) wants its caller to declare this. */
union semun {
    int val;
    struct semid_ds *buf;
    unsigned short *array;
    void *info;
};

struct attachment {
    unsigned char *address;
    unsigned long size;
};

/* What the threads share is what the process has attached. */
static struct attachment attached[ATTACHED_MOST];
/* This program, whose name a client may have no right to look up. */
static int program;

static _Thread_local FILE *in, *out;
static _Thread_local char *rest;
static _Thread_local struct {
    long mtype;
    unsigned char text[TEXT_MOST];
} message;
static _Thread_local unsigned short values[VALUES_MOST];

static char *next_word(void) { return strtok_r(NULL, " ", &rest); }

static unsigned long number(void)
{
    const char *word = next_word();
    return word ? strtoul(word, NULL, 10) : 0;
}

static long signed_number(void)
{
    const char *word = next_word();
    return word ? strtol(word, NULL, 10) : 0;
}

static int digit(char it) { return it <= '9' ? it - '0' : it - 'a' + 10; }

/* The bytes of a text, and how many there are. */
static size_t text_to(unsigned char *bytes)
{
    const char *word = next_word();
    size_t size = 0;
    for (; word && word[0] && word[1] && size < TEXT_MOST; word += 2)
        bytes[size++] = (unsigned char)(digit(word[0]) * 16 + digit(word[1]));
    return size;
}

static void tell_text(const unsigned char *bytes, size_t size)
{
    fprintf(out, " x:");
    for (size_t at = 0; at < size; at++)
        fprintf(out, "%02x", bytes[at]);
}

/* Tells what a system call returned, and whether it was granted. */
static int tell(long result)
{
    fprintf(out, "%ld %d", result, result < 0 ? errno : 0);
    return result >= 0;
}

static void refuse(int error)
{
    errno = error;
    tell(-1);
}

static void tell_perm(const struct ipc_perm *it)
{
    fprintf(out, " %u %u %u %u %u %o", (unsigned)it->__key, it->uid, it->gid, it->cuid, it->cgid, it->mode);
}

/* Queues */

static void make_msgget(void)
{
    unsigned key = (unsigned)number();
    tell(syscall(SYS_msgget, key, (int)number()));
}

static void make_msgsnd(void)
{
    int id = (int)number(), flags = (int)number();
    message.mtype = signed_number();
    tell(syscall(SYS_msgsnd, id, &message, text_to(message.text), flags));
}

static void make_msgrcv(void)
{
    int id = (int)number();
    unsigned long size = number();
    long msgtyp = signed_number(), got = syscall(SYS_msgrcv, id, &message, size, msgtyp, (int)number());
    if (tell(got)) {
        fprintf(out, " %ld", message.mtype);
        tell_text(message.text, (size_t)got);
    }
}

/* Semaphore sets */

static _Thread_local struct sembuf operations[OPS_MOST];

/* The operations at the end of a line, and how many there are. */
static size_t read_operations(void)
{
    size_t count = number();
    for (size_t at = 0; at < count && at < OPS_MOST; at++) {
        operations[at].sem_num = (unsigned short)number();
        operations[at].sem_op = (short)signed_number();
        operations[at].sem_flg = (short)number();
    }
    return count;
}

static void make_semget(void)
{
    unsigned key = (unsigned)number();
    int nsems = (int)number();
    tell(syscall(SYS_semget, key, nsems, (int)number()));
}

static void make_semop(void)
{
    int id = (int)number();
    size_t count = read_operations();
    tell(syscall(SYS_semop, id, operations, count));
}

/* The time is in milliseconds. */
static void make_semtimedop(void)
{
    int id = (int)number();
    unsigned long wait = number();
    struct timespec limit = {(time_t)(wait / 1000), (long)(wait % 1000) * 1000000};
    size_t count = read_operations();
    tell(syscall(SYS_semtimedop, id, operations, count, &limit));
}

static void semaphore(int command)
{
    int id = (int)number();
    tell(syscall(SYS_semctl, id, (int)number(), command, 0));
}

static void make_getval(void) { semaphore(GETVAL); }
static void make_getpid(void) { semaphore(GETPID); }
static void make_getncnt(void) { semaphore(GETNCNT); }
static void make_getzcnt(void) { semaphore(GETZCNT); }

static void make_setval(void)
{
    int id = (int)number(), number_in_set = (int)number();
    tell(syscall(SYS_semctl, id, number_in_set, SETVAL, signed_number()));
}

static void make_getall(void)
{
    int id = (int)number();
    unsigned long count = number();
    union semun argument = {.array = values};
    if (tell(syscall(SYS_semctl, id, 0, GETALL, argument)))
        for (unsigned long at = 0; at < count; at++)
            fprintf(out, " %u", values[at]);
}

static void make_setall(void)
{
    int id = (int)number();
    unsigned long count = number();
    union semun argument = {.array = values};
    for (unsigned long at = 0; at < count && at < VALUES_MOST; at++)
        values[at] = (unsigned short)number();
    tell(syscall(SYS_semctl, id, 0, SETALL, argument));
}

/* Segments */

static void make_shmget(void)
{
    unsigned key = (unsigned)number();
    unsigned long size = number();
    tell(syscall(SYS_shmget, key, size, (int)number()));
}

/* The size of the segment comes last. An attachment's number is the lowest that is free. */
static void make_shmat(void)
{
    int id = (int)number(), flags = (int)number();
    long address = syscall(SYS_shmat, id, NULL, flags), at = 0;
    if (address == -1) {
        tell(-1);
        return;
    }
    while (attached[at].address)
        at++;
    attached[at] = (struct attachment){(unsigned char *)address, number()};
    tell(at);
}

static int is_attached(unsigned long at) { return at < ATTACHED_MOST && attached[at].address; }

/* A number that nothing is attached at becomes an address where nothing is. */
static void make_shmdt(void)
{
    unsigned long at = number();
    if (tell(syscall(SYS_shmdt, is_attached(at) ? attached[at].address : (unsigned char *)4096)))
        attached[at].address = NULL;
}

static int has_range(unsigned long at, unsigned long offset, unsigned long size)
{
    return is_attached(at) && offset <= attached[at].size && size <= attached[at].size - offset;
}

static void make_shmread(void)
{
    unsigned long at = number(), offset = number(), size = number();
    if (!has_range(at, offset, size)) {
        refuse(EINVAL);
        return;
    }
    tell(0);
    tell_text(attached[at].address + offset, size);
}

/* Whether the memory may be written: the kernel writes a byte there that it has read. */
static int may_write(unsigned char *address)
{
    int ends[2];
    if (pipe(ends) || write(ends[1], address, 1) != 1)
        _exit(8);
    int may = read(ends[0], address, 1) == 1;
    close(ends[0]);
    close(ends[1]);
    return may;
}

static void make_shmwrite(void)
{
    unsigned long at = number(), offset = number();
    size_t size = text_to(message.text);
    if (!is_attached(at))
        refuse(EINVAL);
    else if (!may_write(attached[at].address))
        refuse(EACCES);
    else if (!has_range(at, offset, size))
        refuse(EINVAL);
    else {
        memcpy(attached[at].address + offset, message.text, size);
        tell(0);
    }
}

/* Objects of any kind: q, s or m. */

static long control(char kind, int id, int command, void *buffer)
{
    union semun argument = {.info = buffer};
    if (kind == 'q')
        return syscall(SYS_msgctl, id, command, buffer);
    if (kind == 's')
        return syscall(SYS_semctl, id, 0, command, argument);
    return syscall(SYS_shmctl, id, command, buffer);
}

static char kind_word(void)
{
    const char *word = next_word();
    return word ? word[0] : 'm';
}

static void make_stat(void)
{
    char kind = kind_word();
    int id = (int)number();
    struct msqid_ds q;
    struct semid_ds s;
    struct shmid_ds m;
    if (!tell(control(kind, id, IPC_STAT, kind == 'q' ? (void *)&q : kind == 's' ? (void *)&s : (void *)&m)))
        return;
    tell_perm(kind == 'q' ? &q.msg_perm : kind == 's' ? &s.sem_perm : &m.shm_perm);
    if (kind == 'q')
        fprintf(out, " %lu %lu %lu %d %d %ld %ld %ld", q.__msg_cbytes, q.msg_qnum, q.msg_qbytes, q.msg_lspid, q.msg_lrpid, q.msg_stime, q.msg_rtime,
               q.msg_ctime);
    else if (kind == 's')
        fprintf(out, " %lu %ld %ld", s.sem_nsems, s.sem_otime, s.sem_ctime);
    else
        fprintf(out, " %lu %lu %d %d %ld %ld %ld", m.shm_segsz, m.shm_nattch, m.shm_cpid, m.shm_lpid, m.shm_atime, m.shm_dtime, m.shm_ctime);
}

static void make_set(void)
{
    char kind = kind_word();
    int id = (int)number();
    struct msqid_ds q = {0};
    struct semid_ds s = {0};
    struct shmid_ds m = {0};
    struct ipc_perm *perm = kind == 'q' ? &q.msg_perm : kind == 's' ? &s.sem_perm : &m.shm_perm;
    perm->uid = (uid_t)number();
    perm->gid = (gid_t)number();
    perm->mode = (unsigned short)number();
    q.msg_qbytes = number();
    tell(control(kind, id, IPC_SET, kind == 'q' ? (void *)&q : kind == 's' ? (void *)&s : (void *)&m));
}

static void make_rmid(void)
{
    char kind = kind_word();
    tell(control(kind, (int)number(), IPC_RMID, NULL));
}

/* Each object that the client may read, by its index in the kernel's table. */
static void make_list(void)
{
    static struct {
        char kind;
        int info, stat;
    } commands[] = {{'q', MSG_INFO, MSG_STAT}, {'s', SEM_INFO, SEM_STAT}, {'m', SHM_INFO, SHM_STAT}};
    union {
        struct msginfo msg;
        struct seminfo sem;
        struct shm_info shm;
    } info;
    union {
        struct msqid_ds q;
        struct semid_ds s;
        struct shmid_ds m;
    } it;
    char kind = kind_word();
    int at = kind == 'q' ? 0 : kind == 's' ? 1 : 2;
    long last = control(kind, 0, commands[at].info, &info);
    tell(0);
    for (int index = 0; index <= last; index++) {
        long id = control(kind, index, commands[at].stat, &it);
        if (id < 0)
            continue;
        struct ipc_perm *perm = kind == 'q' ? &it.q.msg_perm : kind == 's' ? &it.s.sem_perm : &it.m.shm_perm;
        fprintf(out, " %u:%ld:%u:%o", (unsigned)perm->__key, id, perm->uid, perm->mode);
        if (kind == 'q')
            fprintf(out, ":%lu:%lu", it.q.__msg_cbytes, it.q.msg_qnum);
        else if (kind == 's')
            fprintf(out, ":%lu", it.s.sem_nsems);
        else
            fprintf(out, ":%lu:%lu", it.m.shm_segsz, it.m.shm_nattch);
    }
}

/* Processes */

static size_t groups_of(char *word, gid_t *groups)
{
    size_t count = 0;
    for (char *it = word; strcmp(word, "-") && *it && count < GROUPS_MOST; it += *it == ',')
        groups[count++] = (gid_t)strtoul(it, &it, 10);
    return count;
}

/* Sends a signal to each of these threads of a process, where each may be sent it, and else to none. */
static void signal_threads(int signal)
{
    pid_t process = (pid_t)signed_number(), threads[THREADS_MOST];
    size_t count = 0;
    for (char *word; count < THREADS_MOST && (word = next_word());)
        threads[count++] = (pid_t)strtol(word, NULL, 10);
    for (size_t at = 0; at < count; at++)
        if (syscall(SYS_tgkill, process, threads[at], 0)) {
            tell(-1);
            return;
        }
    for (size_t at = 0; at < count; at++)
        syscall(SYS_tgkill, process, threads[at], signal);
    tell(0);
}

static void make_interrupt(void) { signal_threads(SIGUSR1); }
static void make_kill(void) { signal_threads(SIGKILL); }

/* Users, groups and supplementary groups change together, or, where one is refused, none. GROUPS is = where these stay. */
static void make_setcreds(void)
{
    uid_t user = (uid_t)number(), old_user = geteuid();
    gid_t group = (gid_t)number(), old_group = getegid(), groups[GROUPS_MOST];
    char *word = next_word();
    long result = syscall(SYS_setresuid, -1, user, -1);
    if (result == 0) {
        result = syscall(SYS_setresgid, -1, group, -1);
        if (result == 0 && strcmp(word, "="))
            result = syscall(SYS_setgroups, groups_of(word, groups), groups);
    }
    int error = errno;
    if (result != 0 && (syscall(SYS_setresgid, -1, old_group, -1) || syscall(SYS_setresuid, -1, old_user, -1)))
        _exit(7);
    errno = error;
    tell(result);
}

static void serve(void);

/* The pipes by which a thread is told its calls. A process has them as standard input and output, and nothing else of the one before it. */
static void take_pipes(const char *path, int is_process)
{
    char name[PATH_MOST + 8];
    snprintf(name, sizeof name, "%s.in", path);
    in = is_process ? freopen(name, "r", stdin) : fopen(name, "re");
    snprintf(name, sizeof name, "%s.out", path);
    out = is_process ? freopen(name, "w", stdout) : fopen(name, "we");
    if (!in || !out)
        _exit(6);
    fprintf(out, "ready %ld %ld\n", (long)getpid(), (long)syscall(SYS_gettid));
    fflush(out);
}

static void find_program(void) { program = open("/proc/self/exe", O_PATH | O_CLOEXEC); }

static void make_fork(void)
{
    char path[PATH_MOST];
    snprintf(path, sizeof path, "%s", next_word());
    long child = fork();
    if (child == 0) {
        /* Neither the pipes of other threads nor the end of the parent are the child's. */
        close_range(2, ~0U, 0);
        find_program();
        prctl(PR_SET_PDEATHSIG, 0);
        take_pipes(path, 1);
        serve();
        _exit(0);
    }
    tell(child);
}

static void *begin_thread(void *path)
{
    take_pipes(path, 0);
    free(path);
    serve();
    syscall(SYS_exit, 0);
    return NULL;
}

static void make_clone(void)
{
    pthread_t thread;
    errno = pthread_create(&thread, NULL, begin_thread, strdup(next_word()));
    tell(errno ? -1 : 0);
}

/* Capabilities stay over an exec where they are inheritable and ambient. */
static void keep_capabilities(void)
{
    struct __user_cap_header_struct head = {_LINUX_CAPABILITY_VERSION_3, 0};
    struct __user_cap_data_struct sets[2];
    if (syscall(SYS_capget, &head, sets))
        _exit(7);
    for (int at = 0; at < 2; at++)
        sets[at].inheritable = sets[at].permitted;
    if (syscall(SYS_capset, &head, sets))
        _exit(7);
    for (int cap = 0; cap <= CAP_LAST_CAP; cap++)
        if (sets[cap / 32].permitted >> cap % 32 & 1 && prctl(PR_CAP_AMBIENT, PR_CAP_AMBIENT_RAISE, cap, 0, 0))
            _exit(7);
}

/* The program that takes this one's place answers. */
static void make_exec(void)
{
    keep_capabilities();
    if (dup2(fileno(in), 0) == 0 && dup2(fileno(out), 1) == 1)
        syscall(SYS_execveat, program, "", (char *[]){"kernel_client", "again", NULL}, environ, AT_EMPTY_PATH);
    tell(-1);
}

/* The thread alone ends, and with the last one the process. */
static void make_exit(void) { syscall(SYS_exit, 0); }

#define CALL(name) {#name, make_##name}
static const struct {
    const char *name;
    void (*make)(void);
} calls[] = {
    CALL(msgget),  CALL(msgsnd),  CALL(msgrcv),   CALL(semget), CALL(semop),  CALL(semtimedop), CALL(getval), CALL(getpid),    CALL(getncnt),
    CALL(getzcnt), CALL(setval),  CALL(getall),   CALL(setall), CALL(shmget), CALL(shmat),      CALL(shmdt),  CALL(shmread),   CALL(shmwrite),
    CALL(stat),    CALL(set),     CALL(rmid),     CALL(list),   CALL(exit),   CALL(setcreds),   CALL(interrupt),
    CALL(kill),    CALL(fork),    CALL(clone),    CALL(exec),
};

static void make(const char *name)
{
    for (size_t at = 0; at < sizeof calls / sizeof *calls; at++)
        if (name && !strcmp(calls[at].name, name)) {
            calls[at].make();
            return;
        }
    refuse(ENOSYS);
}

static void do_nothing(int signal) { (void)signal; }

/* Takes the client's credentials. Capabilities are what the mask says, whatever the users are. */
static void become(char **words)
{
    struct __user_cap_header_struct head = {_LINUX_CAPABILITY_VERSION_3, 0};
    struct __user_cap_data_struct sets[2] = {{0}};
    uid_t user = (uid_t)strtoul(words[1], NULL, 10), saved_user = (uid_t)strtoul(words[3], NULL, 10);
    gid_t group = (gid_t)strtoul(words[2], NULL, 10), saved_group = (gid_t)strtoul(words[4], NULL, 10), groups[GROUPS_MOST];
    unsigned long mask = strtoul(words[6], NULL, 16);
    sets[0].effective = sets[0].permitted = (unsigned)mask;
    sets[1].effective = sets[1].permitted = (unsigned)(mask >> 32);
    if (setgroups(groups_of(words[5], groups), groups) || setresgid(group, group, saved_group) ||
        prctl(PR_SET_SECUREBITS, SECBIT_NOROOT | SECBIT_KEEP_CAPS | SECBIT_NO_SETUID_FIXUP) || setresuid(user, user, saved_user) ||
        syscall(SYS_capset, &head, sets) || prctl(PR_SET_PDEATHSIG, SIGKILL)) {
        perror("kernel_client");
        exit(3);
    }
}

static void serve(void)
{
    char *line = NULL;
    size_t room = 0;
    while (getline(&line, &room, in) > 0) {
        line[strcspn(line, "\n")] = '\0';
        make(strtok_r(line, " ", &rest));
        fputc('\n', out);
        fflush(out);
    }
}

int main(int count, char **words)
{
    /* The calls that wait are interrupted all the same (signal(7)). Who ends is nobody's to ask for. */
    struct sigaction action = {.sa_handler = do_nothing, .sa_flags = SA_RESTART}, none = {.sa_handler = SIG_IGN};
    int has_begun_again = count == 2;
    if (count != 7 && !has_begun_again)
        return 2;
    sigaction(SIGUSR1, &action, NULL);
    sigaction(SIGCHLD, &none, NULL);
    find_program();
    in = stdin, out = stdout;
    if (has_begun_again)
        prctl(PR_CAP_AMBIENT, PR_CAP_AMBIENT_CLEAR_ALL, 0, 0, 0);
    else
        become(words);
    puts(has_begun_again ? "0 0" : "ready");
    fflush(stdout);
    serve();
    return 0;
}
