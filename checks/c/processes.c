/*
 * The calls on processes and threads, each with its refusals: what fork copies, what exit, exec and kill end and undo, and what each thread has of
 * its own. Each part has a service of its own, whose clients are at first the processes 1 to 5.
 */
#include "ipcsh.h"

#include <pthread.h>
#include <stdio.h>
#include <stdlib.h>

enum { CLIENTS = 5, ALICE = 0, BOB = 1, KID = 2, TOM = 3, ROOT = 4 };

static ipcsh *handles[CLIENTS], *alice, *bob, *kid, *tom, *root;
static struct ipcsh_reply reply;

static const struct ipcsh_identity nobody = {.uid = 500, .gid = 50, .ruid = 500, .rgid = 50, .suid = 500, .sgid = 50};

/* A call that is refused here is a mistake of this program. */
static void must(int code, const char *call)
{
    if (code == 0)
        return;
    fprintf(stderr, "%s: %d %s\n", call, code, ipcsh_rule_name(reply.rule));
    exit(1);
}

/* What a call that was just made is answered. */
static void tell(const char *what, int code)
{
    printf("    %s: %d%s%s\n", what, code, code > 0 ? " " : "", code > 0 ? ipcsh_rule_name(reply.rule) : "");
}

static void begin_part(const char *name)
{
    const struct ipcsh_limits limits = IPCSH_DEFAULT_LIMITS;
    const struct ipcsh_client clients[CLIENTS] = {
        {.uid = 100, .gid = 10}, {.uid = 200, .gid = 20}, {.uid = 200, .gid = 20}, {.uid = 300, .gid = 30},
        {.uid = 900, .gid = 90, .caps = IPCSH_SYS_ADMIN}};
    must(ipcsh_open(&limits, clients, CLIENTS, handles), "open");
    alice = handles[ALICE];
    bob = handles[BOB];
    kid = handles[KID];
    tom = handles[TOM];
    root = handles[ROOT];
    printf("%s\n", name);
}

static void end_part(void)
{
    for (int i = 0; i < CLIENTS; i++)
        ipcsh_close(handles[i]);
}

/* kid and tom have ended, so that others may begin in them. */
static void end_two(void)
{
    must(ipcsh_exit(kid, 0, &reply), "exit");
    must(ipcsh_exit(tom, 0, &reply), "exit");
}

static uint32_t new_set(ipcsh *client, uint32_t sems)
{
    uint32_t set = 0;
    must(ipcsh_semget(client, 0, 0, sems, 0666, &reply, &set), "semget");
    return set;
}

static uint32_t new_segment(ipcsh *client)
{
    uint32_t segment = 0;
    must(ipcsh_shmget(client, 0, 0, 4, 0600, &reply, &segment), "shmget");
    return segment;
}

static uint32_t attach(ipcsh *client, uint32_t segment, uint32_t flags)
{
    uint32_t attachment = 0;
    must(ipcsh_shmat(client, 0, segment, flags, &reply, &attachment), "shmat");
    return attachment;
}

/* Adds to semaphore 0, which is to be undone as the process ends. */
static void add(ipcsh *client, uint32_t set, int by)
{
    const struct ipcsh_semop op = {0, (int16_t)by, IPCSH_SEM_UNDO};
    must(ipcsh_semop(client, 0, set, &op, 1, &reply), "semop");
}

static void tell_value(const char *when, uint32_t set)
{
    uint32_t value = 0, pid = 0;
    must(ipcsh_getval(root, 0, set, 0, &reply, &value), "getval");
    must(ipcsh_getpid(root, 0, set, 0, &reply, &pid), "getpid");
    printf("    %s: value %u, by process %u\n", when, value, pid);
}

static void tell_segment(const char *when, ipcsh *client, uint32_t segment)
{
    struct ipcsh_object it;
    must(ipcsh_stat(client, 0, IPCSH_SEGMENT, segment, &it, &reply), "stat");
    printf("    %s: %u attached, lpid %u, atime %u, dtime %u\n", when, (unsigned)it.count, it.lpid, (unsigned)it.atime, (unsigned)it.dtime);
}

/* A thread of the program, whose client waits for semaphore 1. */
struct waiter {
    pthread_t thread;
    ipcsh *handle;
    uint32_t set;
    int code;
    struct ipcsh_reply reply;
};

static void *wait_for_one(void *given)
{
    const struct ipcsh_semop take = {1, -1, 0};
    struct waiter *it = given;
    it->code = ipcsh_semop(it->handle, 0, it->set, &take, 1, &it->reply);
    return NULL;
}

/* Starts the thread, and comes back once so many calls wait for the semaphore. */
static struct waiter *start_waiter(struct waiter *it, ipcsh *handle, uint32_t set, uint32_t waiting)
{
    uint32_t count = 0;
    *it = (struct waiter){.handle = handle, .set = set};
    must(pthread_create(&it->thread, NULL, wait_for_one, it), "pthread_create");
    while (count < waiting) {
        sched_yield();
        must(ipcsh_getncnt(root, 0, set, 1, &reply, &count), "getncnt");
    }
    return it;
}

static void tell_waiter(const char *who, struct waiter *it)
{
    must(pthread_join(it->thread, NULL), "pthread_join");
    printf("    the semop of %s: %d%s%s\n", who, it->code, it->code ? " " : "", it->code ? ipcsh_rule_name(it->reply.rule) : "");
}

/* Each call of a client that has ended. */
static void by_the_ended(void)
{
    begin_part("by a client that has ended");
    end_two();
    tell("fork", ipcsh_fork(kid, 0, TOM, 9, &reply));
    tell("fork with pid 0", ipcsh_fork(kid, 0, TOM, 0, &reply));
    tell("clone", ipcsh_clone(kid, 0, TOM, &reply));
    tell("exec", ipcsh_exec(kid, 0, &reply));
    tell("kill", ipcsh_kill(kid, 0, 1, &reply));
    tell("interrupt", ipcsh_interrupt(kid, 0, 1, &reply));
    tell("interrupt_thread", ipcsh_interrupt_thread(kid, 0, 99, &reply));
    tell("name", ipcsh_name(kid, 0, 0, &reply));
    tell("assume", ipcsh_assume(kid, 0, &nobody, &reply));
    tell("exit", ipcsh_exit(kid, 0, &reply));
    tell("begin", ipcsh_begin(kid, 0, 9, &nobody, &reply));
    tell("exit then", ipcsh_exit(kid, 0, &reply));
    end_part();
}

static void refusals_of_begin(void)
{
    static const uint32_t groups[33];
    struct ipcsh_identity it = nobody;
    begin_part("begin");
    end_two();
    tell("by a client that runs, with pid 0", ipcsh_begin(alice, 0, 0, &nobody, &reply));
    it.ngroups = 33;
    tell("33 groups at NULL", ipcsh_begin(kid, 0, 9, &it, &reply));
    tell("without credentials", ipcsh_begin(kid, 0, 9, NULL, &reply));
    it.groups = groups;
    tell("pid 0, with 33 groups", ipcsh_begin(kid, 0, 0, &it, &reply));
    tell("the pid of alice, with 33 groups", ipcsh_begin(kid, 0, 1, &it, &reply));
    it.ngroups = 32;
    tell("the pid of alice", ipcsh_begin(kid, 0, 1, &it, &reply));
    tell("its own old pid, with 32 groups", ipcsh_begin(kid, 0, 3, &it, &reply));
    tell("the highest pid", ipcsh_begin(tom, 0, UINT32_MAX, &nobody, &reply));
    tell("once more", ipcsh_begin(tom, 0, 9, &nobody, &reply));
    end_part();
}

static void refusals_of_fork_and_clone(void)
{
    begin_part("fork and clone");
    end_two();
    tell("fork into client 99 with pid 0", ipcsh_fork(alice, 0, 99, 0, &reply));
    tell("fork into client 99 with the pid of bob", ipcsh_fork(alice, 0, 99, 2, &reply));
    tell("fork into bob with his pid", ipcsh_fork(alice, 0, BOB, 2, &reply));
    tell("fork into alice herself", ipcsh_fork(alice, 0, ALICE, 9, &reply));
    tell("fork into kid with the pid of bob", ipcsh_fork(alice, 0, KID, 2, &reply));
    tell("fork into kid", ipcsh_fork(alice, 0, KID, 9, &reply));
    tell("fork into kid again", ipcsh_fork(alice, 0, KID, 10, &reply));
    tell("clone into client 99", ipcsh_clone(alice, 0, 99, &reply));
    tell("clone into bob", ipcsh_clone(alice, 0, BOB, &reply));
    tell("clone into tom", ipcsh_clone(alice, 0, TOM, &reply));
    tell("clone into tom again", ipcsh_clone(bob, 0, TOM, &reply));
    end_part();
}

/* Whom a client may signal: its own process, its own user, or with SYS_ADMIN anybody; each thread of a process counts. */
static void refusals_of_signals(void)
{
    begin_part("kill and interrupts");
    must(ipcsh_exit(tom, 0, &reply), "exit");
    tell("kill process 0", ipcsh_kill(alice, 0, 0, &reply));
    tell("kill process 77", ipcsh_kill(alice, 0, 77, &reply));
    tell("kill bob", ipcsh_kill(alice, 0, 2, &reply));
    tell("interrupt process 0", ipcsh_interrupt(alice, 0, 0, &reply));
    tell("interrupt tom, who has ended", ipcsh_interrupt(alice, 0, 4, &reply));
    tell("interrupt bob", ipcsh_interrupt(alice, 0, 2, &reply));
    tell("interrupt thread 99", ipcsh_interrupt_thread(alice, 0, 99, &reply));
    tell("interrupt thread tom, who has ended", ipcsh_interrupt_thread(alice, 0, TOM, &reply));
    tell("interrupt thread bob", ipcsh_interrupt_thread(alice, 0, BOB, &reply));
    tell("kid interrupts bob of the same user", ipcsh_interrupt(kid, 0, 2, &reply));
    tell("kid interrupts thread bob", ipcsh_interrupt_thread(kid, 0, BOB, &reply));
    must(ipcsh_clone(bob, 0, TOM, &reply), "clone");
    must(ipcsh_assume(tom, 0, &nobody, &reply), "assume");
    tell("kid interrupts bob, who has a thread of another user", ipcsh_interrupt(kid, 0, 2, &reply));
    tell("kid kills bob then", ipcsh_kill(kid, 0, 2, &reply));
    tell("kid interrupts thread bob alone", ipcsh_interrupt_thread(kid, 0, BOB, &reply));
    tell("that thread interrupts bob's process", ipcsh_interrupt(tom, 0, 2, &reply));
    tell("root kills bob", ipcsh_kill(root, 0, 2, &reply));
    tell("tom ended with bob", ipcsh_exit(tom, 0, &reply));
    end_part();
}

static void copies_of_fork(void)
{
    char byte = 0;
    begin_part("what fork copies");
    end_two();
    uint32_t set = new_set(alice, 1), segment = new_segment(alice);
    add(alice, set, 5);
    uint32_t gone = attach(alice, segment, 0), write = attach(alice, segment, 0), read = attach(alice, segment, IPCSH_SHM_RDONLY);
    must(ipcsh_shmdt(alice, 2, gone, &reply), "shmdt");
    must(ipcsh_fork(alice, 7, KID, 9, &reply), "fork");
    tell_segment("after the fork", alice, segment);
    tell("the number that was detached", ipcsh_shmread(kid, 0, gone, 0, &byte, 1, &reply));
    tell("a write", ipcsh_shmwrite(kid, 0, write, 0, "z", 1, &reply));
    tell("a write to what is read-only", ipcsh_shmwrite(kid, 0, read, 0, "z", 1, &reply));
    tell("alice reads", ipcsh_shmread(alice, 0, read, 0, &byte, 1, &reply));
    printf("    the byte: %c\n", byte);
    must(ipcsh_exit(kid, 8, &reply), "exit");
    tell_segment("after the child's exit", alice, segment);
    tell_value("semadj isn't copied", set);
    must(ipcsh_fork(alice, 9, KID, 9, &reply), "fork");
    add(kid, set, 2);
    must(ipcsh_exit(kid, 9, &reply), "exit");
    tell_value("the child's own is undone", set);
    must(ipcsh_fork(alice, 9, KID, 9, &reply), "fork");
    must(ipcsh_rmid(alice, 9, IPCSH_SEGMENT, segment, &reply), "rmid");
    must(ipcsh_exit(alice, 9, &reply), "exit");
    tell_value("and alice's with her", set);
    tell("the child still writes to the segment, which is removed", ipcsh_shmwrite(kid, 9, write, 0, "y", 1, &reply));
    must(ipcsh_exit(kid, 9, &reply), "exit");
    tell("then it is gone", ipcsh_stat(root, 9, IPCSH_SEGMENT, segment, &(struct ipcsh_object){.id = 0}, &reply));
    end_part();
}

/* Two threads have one semadj and the same attachments; the process ends with its last thread, whichever began it. */
static void threads_of_one_process(void)
{
    char byte = 0;
    begin_part("two threads of a process");
    end_two();
    uint32_t set = new_set(alice, 1);
    must(ipcsh_setval(alice, 0, set, 0, 10, &reply), "setval");
    must(ipcsh_clone(alice, 0, TOM, &reply), "clone");
    add(tom, set, -3);
    uint32_t segment = new_segment(tom), attachment = attach(tom, segment, 0);
    must(ipcsh_exit(tom, 0, &reply), "exit");
    tell_value("after the exit of one", set);
    tell("the other reads what it attached", ipcsh_shmread(alice, 0, attachment, 0, &byte, 1, &reply));
    must(ipcsh_clone(alice, 0, TOM, &reply), "clone");
    add(tom, set, 1);
    must(ipcsh_exit(alice, 0, &reply), "exit");
    tell_value("after that of the first", set);
    tell("the process is there", ipcsh_interrupt(root, 0, 1, &reply));
    must(ipcsh_exit(tom, 3, &reply), "exit");
    tell_value("after that of the last", set);
    tell("the process is gone", ipcsh_interrupt(root, 0, 1, &reply));
    must(ipcsh_begin(alice, 3, 1, &(struct ipcsh_identity){.uid = 100, .gid = 10}, &reply), "begin");
    tell_segment("so is its attachment", alice, segment);
    tell("and a new process with its pid has none", ipcsh_shmread(alice, 0, attachment, 0, &byte, 1, &reply));
    end_part();
}

/* exec keeps the pid and semadj; attachments, siblings and their waiting calls end, and the saved user is the effective one. */
static void what_exec_ends(void)
{
    const struct ipcsh_identity creds = {.uid = 300, .gid = 30, .ruid = 300, .rgid = 30, .suid = 100, .sgid = 10};
    struct waiter waiter;
    begin_part("exec");
    end_two();
    must(ipcsh_begin(kid, 0, 9, &creds, &reply), "begin");
    tell("kid may be her saved user", ipcsh_setcreds(kid, 0, 100, 10, NULL, 0, &reply));
    must(ipcsh_setcreds(kid, 0, 300, 30, NULL, 0, &reply), "setcreds");
    uint32_t set = new_set(kid, 2), segment = new_segment(kid), attachment = attach(kid, segment, 0);
    add(kid, set, 4);
    must(ipcsh_clone(kid, 0, TOM, &reply), "clone");
    start_waiter(&waiter, tom, set, 1);
    tell("exec", ipcsh_exec(kid, 5, &reply));
    tell_waiter("her other thread", &waiter);
    tell("that thread", ipcsh_exec(tom, 5, &reply));
    tell_value("semadj stays", set);
    tell_segment("the attachment doesn't", kid, segment);
    tell("shmdt", ipcsh_shmdt(kid, 5, attachment, &reply));
    tell("kid was the saved user", ipcsh_setcreds(kid, 5, 100, 30, NULL, 0, &reply));
    tell("and of the saved group", ipcsh_setcreds(kid, 5, 300, 10, NULL, 0, &reply));
    must(ipcsh_exit(kid, 5, &reply), "exit");
    tell_value("exit undoes", set);
    end_part();
}

/* A process whose threads wait is killed: their calls end, its semadj comes back, and the wait of another is served by that. */
static void what_kill_ends(void)
{
    const struct ipcsh_semop ops[] = {{0, -1, IPCSH_SEM_UNDO}, {1, -1, IPCSH_SEM_UNDO}};
    struct waiter first, second, third;
    begin_part("kill");
    must(ipcsh_exit(tom, 0, &reply), "exit");
    uint32_t set = new_set(alice, 2);
    must(ipcsh_setall(alice, 0, set, (const uint16_t[]){1, 1}, 2, &reply), "setall");
    must(ipcsh_semop(alice, 0, set, ops, 2, &reply), "semop");
    must(ipcsh_clone(alice, 0, TOM, &reply), "clone");
    start_waiter(&first, tom, set, 1);
    start_waiter(&second, bob, set, 2);
    start_waiter(&third, alice, set, 3);
    tell("kid kills her", ipcsh_kill(kid, 0, 1, &reply));
    tell("root kills her", ipcsh_kill(root, 0, 1, &reply));
    tell_waiter("tom", &first);
    tell_waiter("alice", &third);
    tell_waiter("bob", &second);
    tell_value("what alice took is back", set);
    tell("root kills her again", ipcsh_kill(root, 0, 1, &reply));
    tell("tom begins with her pid", ipcsh_begin(tom, 0, 1, &nobody, &reply));
    tell("he kills himself", ipcsh_kill(tom, 0, 1, &reply));
    tell("and has ended", ipcsh_kill(tom, 0, 1, &reply));
    end_part();
}

/* Of two threads that wait an interrupt of one ends its call alone, and one of the process those of both. */
static void interrupts_of_threads(void)
{
    struct waiter first, second;
    begin_part("interrupts of threads");
    must(ipcsh_exit(tom, 0, &reply), "exit");
    must(ipcsh_clone(alice, 0, TOM, &reply), "clone");
    uint32_t set = new_set(alice, 2), count = 0;
    start_waiter(&first, alice, set, 1);
    start_waiter(&second, tom, set, 2);
    tell("interrupt thread tom", ipcsh_interrupt_thread(root, 0, TOM, &reply));
    tell_waiter("tom", &second);
    must(ipcsh_getncnt(root, 0, set, 1, &reply, &count), "getncnt");
    printf("    %u still waits\n", count);
    tell("interrupt thread tom, who doesn't wait", ipcsh_interrupt_thread(root, 0, TOM, &reply));
    start_waiter(&second, tom, set, 2);
    tell("interrupt the process", ipcsh_interrupt(root, 0, 1, &reply));
    tell_waiter("tom", &second);
    tell_waiter("alice", &first);
    end_part();
}

/* A process gets another pid: what it has stays its own, and objects keep the old number. */
static void another_name(void)
{
    char byte = 0;
    begin_part("name");
    end_two();
    uint32_t set = new_set(alice, 1), attachment = attach(alice, new_segment(alice), 0);
    must(ipcsh_fork(alice, 0, KID, 1u << 31, &reply), "fork");
    must(ipcsh_clone(kid, 0, TOM, &reply), "clone");
    add(tom, set, 2);
    tell("pid 0", ipcsh_name(kid, 0, 0, &reply));
    tell("the pid of alice", ipcsh_name(kid, 0, 1, &reply));
    tell("its own", ipcsh_name(kid, 0, 1u << 31, &reply));
    tell("77", ipcsh_name(kid, 0, 77, &reply));
    tell_value("the object keeps the number", set);
    tell("the old number", ipcsh_interrupt(root, 0, 1u << 31, &reply));
    tell("its copy of the attachment", ipcsh_shmread(kid, 0, attachment, 0, &byte, 1, &reply));
    add(tom, set, 1);
    must(ipcsh_exit(kid, 0, &reply), "exit");
    tell_value("its other thread has the new one", set);
    must(ipcsh_exit(tom, 0, &reply), "exit");
    tell_value("and undoes what came before it", set);
    tell("alice takes it then", ipcsh_name(alice, 0, 77, &reply));
    end_part();
}

/* Credentials as they are told are those of one thread, with all that is asked of them later. */
static void other_credentials(void)
{
    static const uint32_t groups[33] = {20};
    struct ipcsh_identity it = {.uid = 400, .gid = 40, .ruid = 400, .rgid = 40, .suid = 300, .sgid = 30, .groups = groups, .ngroups = 33};
    uint32_t queue = 0;
    begin_part("assume");
    must(ipcsh_exit(tom, 0, &reply), "exit");
    must(ipcsh_msgget(bob, 0, 0, 0620, &reply, &queue), "msgget");
    must(ipcsh_clone(root, 0, TOM, &reply), "clone");
    tell("no credentials", ipcsh_assume(root, 0, NULL, &reply));
    tell("33 groups", ipcsh_assume(root, 0, &it, &reply));
    tell("a queue of bob's before", ipcsh_msgsnd(alice, 0, queue, 1, "a", 1, 0, &reply));
    it.ngroups = 1;
    tell("alice assumes a user of bob's group", ipcsh_assume(alice, 0, &it, &reply));
    tell("the queue then", ipcsh_msgsnd(alice, 0, queue, 1, "a", 1, 0, &reply));
    tell("its removal", ipcsh_rmid(alice, 0, IPCSH_QUEUE, queue, &reply));
    tell("the saved user", ipcsh_setcreds(alice, 0, 300, 40, NULL, 0, &reply));
    tell("her former one", ipcsh_setcreds(alice, 0, 100, 40, NULL, 0, &reply));
    tell("root assumes nobody", ipcsh_assume(root, 0, &nobody, &reply));
    tell("root removes the queue", ipcsh_rmid(root, 0, IPCSH_QUEUE, queue, &reply));
    tell("his other thread does", ipcsh_rmid(tom, 0, IPCSH_QUEUE, queue, &reply));
    it.caps = IPCSH_SYS_ADMIN;
    tell("bob assumes SYS_ADMIN", ipcsh_assume(bob, 0, &it, &reply));
    tell("and kills alice", ipcsh_kill(bob, 0, 1, &reply));
    end_part();
}

/* Without a handle, or without a place for the reply, nothing is done. */
static void null_pointers(void)
{
    begin_part("NULL for the reply, and for the handle");
    end_two();
    printf("    %d %d", ipcsh_fork(alice, 0, KID, 9, NULL), ipcsh_fork(NULL, 0, KID, 9, &reply));
    printf(" %d %d", ipcsh_clone(alice, 0, KID, NULL), ipcsh_clone(NULL, 0, KID, &reply));
    printf(" %d %d", ipcsh_begin(kid, 0, 9, &nobody, NULL), ipcsh_begin(NULL, 0, 9, &nobody, &reply));
    printf(" %d %d", ipcsh_assume(alice, 0, &nobody, NULL), ipcsh_assume(NULL, 0, &nobody, &reply));
    printf(" %d %d", ipcsh_exec(alice, 0, NULL), ipcsh_exec(NULL, 0, &reply));
    printf(" %d %d", ipcsh_name(alice, 0, 9, NULL), ipcsh_name(NULL, 0, 9, &reply));
    printf(" %d %d", ipcsh_kill(alice, 0, 1, NULL), ipcsh_kill(NULL, 0, 1, &reply));
    printf(" %d %d\n", ipcsh_interrupt_thread(alice, 0, 0, NULL), ipcsh_interrupt_thread(NULL, 0, 0, &reply));
    tell("kid begins with the pid that nobody took", ipcsh_begin(kid, 0, 9, &nobody, &reply));
    tell("process 1 is there", ipcsh_interrupt(root, 0, 1, &reply));
    end_part();
}

/* Prints what calls the journal has. */
static void tell_journal(ipcsh *reader)
{
    static char text[8192];
    size_t len = 1;
    for (size_t all = 0; len > 0; all += len)
        must(ipcsh_read_journal(reader, text + all, sizeof text - 1 - all, &len), "read_journal");
    for (char *line = strtok(text, "\n"); line; line = strtok(NULL, "\n"))
        if (!strncmp(line, "at ", 3))
            printf("    %s\n", line);
}

/* Each argument of each call is its own. */
static void as_the_journal_has_them(void)
{
    static const uint32_t groups[] = {7, 8};
    const struct ipcsh_limits limits = IPCSH_DEFAULT_LIMITS;
    const struct ipcsh_client clients[2] = {{.uid = 100, .gid = 10}, {.uid = 200, .gid = 20}};
    const struct ipcsh_identity it = {1, 2, 3, 4, 5, 6, groups, 2, IPCSH_SYS_ADMIN | IPCSH_SETGID};
    must(ipcsh_open_with_journal(&limits, clients, 2, handles), "open_with_journal");
    alice = handles[0];
    bob = handles[1];
    printf("as the journal has them\n");
    must(ipcsh_exit(bob, 1, &reply), "exit");
    must(ipcsh_begin(bob, 2, 21, &it, &reply), "begin");
    must(ipcsh_assume(bob, 3, &it, &reply), "assume");
    must(ipcsh_exit(bob, 4, &reply), "exit");
    must(ipcsh_fork(alice, 5, 1, 22, &reply), "fork");
    must(ipcsh_kill(alice, 6, 22, &reply), "kill");
    must(ipcsh_clone(alice, 7, 1, &reply), "clone");
    must(ipcsh_name(bob, 8, 23, &reply), "name");
    must(ipcsh_interrupt_thread(alice, 9, 1, &reply), "interrupt_thread");
    must(ipcsh_interrupt(alice, 10, 23, &reply), "interrupt");
    must(ipcsh_exec(bob, 11, &reply), "exec");
    tell_journal(alice);
    ipcsh_close(alice);
    ipcsh_close(bob);
}

int main(void)
{
    by_the_ended();
    refusals_of_begin();
    refusals_of_fork_and_clone();
    refusals_of_signals();
    copies_of_fork();
    threads_of_one_process();
    what_exec_ends();
    what_kill_ends();
    interrupts_of_threads();
    another_name();
    other_credentials();
    null_pointers();
    as_the_journal_has_them();
    return 0;
}
