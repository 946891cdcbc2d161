/* What the owner of objects is denied by their modes. Root, whom no mode denies, becomes another user first. */
#define _GNU_SOURCE
#include <errno.h>
#include <grp.h>
#include <stdio.h>
#include <string.h>
#include <sys/msg.h>
#include <sys/sem.h>
#include <sys/shm.h>
#include <unistd.h>

enum { NOBODY = 65534, KEY = 0x0dec0de };

static struct msqid_ds queue_status;

static void tell(const char *call, long answer)
{
    printf("%s: %s\n", call, answer == -1 ? strerrorname_np(errno) : "granted");
}

static void queues(void)
{
    struct { long type; char text[4]; } message = {1, "hi"};
    int queue = msgget(KEY, IPC_CREAT | 0466);
    tell("msgsnd to a queue of mode 0466", msgsnd(queue, &message, 2, 0));
    tell("msgget that asks for 0600", msgget(KEY, 0600));
    tell("msgget that asks for 0400", msgget(KEY, 0400));
    tell("IPC_STAT", msgctl(queue, IPC_STAT, &queue_status));
    queue_status.msg_perm.mode = 0200;
    tell("IPC_SET", msgctl(queue, IPC_SET, &queue_status));
    tell("msgsnd to a queue of mode 0200", msgsnd(queue, &message, 2, 0));
    tell("msgrcv from it", msgrcv(queue, &message, 2, 0, 0));
    tell("IPC_STAT", msgctl(queue, IPC_STAT, &queue_status));
    queue_status.msg_qbytes = 1 << 20;
    tell("IPC_SET of msg_qbytes above MSGMNB", msgctl(queue, IPC_SET, &queue_status));
    queue_status.msg_qbytes = 100;
    queue_status.msg_perm.uid++;
    tell("IPC_SET of another owner", msgctl(queue, IPC_SET, &queue_status));
    tell("IPC_RMID by the creator", msgctl(queue, IPC_RMID, NULL));
}

static void sets_and_segments(void)
{
    struct sembuf zero = {0, 0, IPC_NOWAIT}, up = {0, 1, 0};
    int set = semget(IPC_PRIVATE, 1, 0400), segment = shmget(IPC_PRIVATE, 10, 0400);
    tell("semop of 0 on a set of mode 0400", semop(set, &zero, 1));
    tell("semop of 1 on it", semop(set, &up, 1));
    tell("SETVAL", semctl(set, 0, SETVAL, 1));
    tell("GETVAL", semctl(set, 0, GETVAL));
    tell("IPC_RMID", semctl(set, 0, IPC_RMID));
    tell("shmat of a segment of mode 0400", (long)shmat(segment, NULL, 0));
    tell("shmat of it with SHM_RDONLY", (long)shmat(segment, NULL, SHM_RDONLY));
    tell("IPC_RMID", shmctl(segment, IPC_RMID, NULL));
}

int main(void)
{
    gid_t none[1] = {NOBODY};
    if (geteuid() == 0 && (setgroups(1, none) < 0 || setresgid(NOBODY, NOBODY, NOBODY) < 0 || setresuid(NOBODY, NOBODY, NOBODY) < 0)) {
        perror("setresuid");
        return 1;
    }
    queues();
    sets_and_segments();
    return 0;
}
