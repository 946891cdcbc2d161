/* The text of each number that the library returns, as a row of the table of docs/C.md; and how the usual prototypes tell what isn't the kernel's. */
#include "ipcsh_sysv.h"

#include <stdio.h>

#define ROW(name, number, text) printf("| %d | `%s` | %s |\n", number, &#name[6], ipcsh_strerror(name));

static ipcsh *alice, *bob;

static void tell(const char *call, int answer)
{
    if (answer < 0)
        printf("%s: %s\n", call, strerror(errno));
    else
        printf("%s: %d\n", call, answer);
}

static void tell_texts(void)
{
    IPCSH_EACH_FAULT(ROW)
    printf("%s, %s, %s\n", ipcsh_strerror(IPCSH_OK), ipcsh_strerror(EACCES), ipcsh_strerror(-4));
}

/* A handle whose call isn't done with. */
static void keep_busy(void)
{
    struct ipcsh_request receive = ipcsh_request_of(IPCSH_MSGRCV, 0);
    struct ipcsh_reply reply;
    receive.size = 5;
    ipcsh_use(alice);
    tell("msgget", msgget(1, IPC_CREAT | 0600));
    ipcsh_post(alice, &receive, NULL);
    tell("a msgrcv that waits", ipcsh_advance(alice, &reply, NULL));
    tell("msgget meanwhile", msgget(1, 0));
    ipcsh_use(bob);
    tell("bob removes its queue", msgctl(0, IPC_RMID, NULL));
    ipcsh_use(alice);
    tell("it ends", ipcsh_wait(alice, &reply, NULL));
    printf("    by %s\n", ipcsh_strerror((int)reply.error));
    tell("msgget then", msgget(1, 0));
}

/* bob may alter a set of alice's and not read it, and sets all of its values. */
static void set_all_unread(void)
{
    unsigned short values[5] = {5, 4, 3, 2, 1}, told[5] = {9, 9, 9, 9, 9};
    ipcsh_use(alice);
    int set = semget(2, 3, IPC_CREAT | 0620);
    ipcsh_use(bob);
    tell("GETALL by who may not read", semctl(set, 0, GETALL, told));
    tell("SETALL by who may not read", semctl(set, 0, SETALL, values));
    values[1] = 32768;
    tell("SETALL of too much", semctl(set, 0, SETALL, values));
    tell("SETALL of NULL", semctl(set, 0, SETALL, NULL));
    ipcsh_use(alice);
    tell("GETALL by the owner", semctl(set, 0, GETALL, told));
    printf("    %d %d %d %d\n", told[0], told[1], told[2], told[3]);
}

/* The status of a segment that is attached as it is removed. */
static void mark(void)
{
    struct shmid_ds status;
    struct ipcsh_reply reply;
    uint32_t attachment;
    int segment = shmget(3, 64, IPC_CREAT | 0600);
    tell("shmat", ipcsh_shmat(alice, 0, (uint32_t)segment, 0, &reply, &attachment));
    tell("IPC_RMID", shmctl(segment, IPC_RMID, NULL));
    tell("IPC_STAT", shmctl(segment, IPC_STAT, &status));
    printf("    mode 0%o, %lu attached, by process %d\n", status.shm_perm.mode, (unsigned long)status.shm_nattch, status.shm_cpid);
    tell("shmdt", ipcsh_shmdt(alice, 0, attachment, &reply));
    tell("IPC_STAT", shmctl(segment, IPC_STAT, &status));
}

int main(void)
{
    const struct ipcsh_limits limits = IPCSH_DEFAULT_LIMITS;
    const struct ipcsh_client clients[] = {{.uid = 100, .gid = 10}, {.uid = 101, .gid = 10, .caps = IPCSH_SYS_ADMIN}};
    ipcsh *handles[2];
    struct msqid_ds status;
    tell_texts();
    if (ipcsh_open(&limits, clients, 2, handles))
        return 1;
    alice = handles[0];
    bob = handles[1];
    tell("a thread without a handle", msgget(1, IPC_CREAT | 0600));
    keep_busy();
    set_all_unread();
    mark();
    tell("MSG_COPY", (int)msgrcv(0, &status, 1, 0, IPC_NOWAIT | 040000));
    printf("alice called before %s\n", ipcsh_use(NULL) == alice ? "and now nobody" : "in vain");
    tell("msgctl", msgctl(0, IPC_STAT, &status));
    ipcsh_close(alice);
    ipcsh_close(bob);
    return 0;
}
