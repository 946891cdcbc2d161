/* Each command of msgctl, semctl and shmctl, with what it answers. Numbers that aren't the same on every machine are told by what they are. */
#define _GNU_SOURCE
#include <errno.h>
#include <stdio.h>
#include <string.h>
#include <sys/msg.h>
#include <sys/sem.h>
#include <sys/shm.h>
#include <time.h>
#include <unistd.h>

union semun {
    int val;
    struct semid_ds *buf;
    unsigned short *array;
};

static time_t began;

static void tell(const char *call, int answer)
{
    if (answer < 0)
        printf("%s: %s\n", call, strerrorname_np(errno));
    else
        printf("%s: %d\n", call, answer);
}

static const char *when(time_t it)
{
    return it == 0 ? "never" : it >= began && it <= time(NULL) ? "now" : "another time";
}

static const char *whose(pid_t it) { return it == 0 ? "nobody" : it == getpid() ? "me" : "another"; }

static void tell_perm(const struct ipc_perm *perm)
{
    const char *mine = perm->uid == geteuid() && perm->gid == getegid() && perm->cuid == geteuid() && perm->cgid == getegid() ? "mine" : "not mine";
    printf("    %s, mode %04o, key %d\n", mine, (unsigned)perm->mode, perm->__key);
}

static void tell_queue(int queue)
{
    struct msqid_ds it;
    tell("msgctl IPC_STAT", msgctl(queue, IPC_STAT, &it));
    tell_perm(&it.msg_perm);
    printf("    %lu bytes in %lu messages of at most %lu bytes\n", (unsigned long)it.__msg_cbytes, (unsigned long)it.msg_qnum, (unsigned long)it.msg_qbytes);
    printf("    sent %s by %s, received %s by %s, changed %s\n", when(it.msg_stime), whose(it.msg_lspid), when(it.msg_rtime), whose(it.msg_lrpid), when(it.msg_ctime));
}

static void queues(void)
{
    struct { long type; char text[8]; } message = {3, "sixteen"};
    struct msqid_ds it;
    int queue = msgget(IPC_PRIVATE, 0640);
    tell_queue(queue);
    tell("msgsnd", msgsnd(queue, &message, 7, 0));
    tell("msgsnd", msgsnd(queue, &message, 8, 0));
    tell_queue(queue);
    tell("msgrcv", (int)msgrcv(queue, &message, 8, 0, 0));
    msgctl(queue, IPC_STAT, &it);
    it.msg_perm.mode = 0600;
    it.msg_qbytes = 100;
    tell("msgctl IPC_SET", msgctl(queue, IPC_SET, &it));
    tell_queue(queue);
    tell("msgctl IPC_RMID", msgctl(queue, IPC_RMID, NULL));
    tell("msgctl IPC_STAT", msgctl(queue, IPC_STAT, &it));
}

static void tell_set(int set)
{
    struct semid_ds it;
    unsigned short values[3];
    tell("semctl IPC_STAT", semctl(set, 0, IPC_STAT, (union semun){.buf = &it}));
    tell_perm(&it.sem_perm);
    printf("    %lu semaphores, operated on %s, changed %s\n", (unsigned long)it.sem_nsems, when(it.sem_otime), when(it.sem_ctime));
    tell("semctl GETALL", semctl(set, 0, GETALL, (union semun){.array = values}));
    printf("    values %u %u %u, last by %s\n", values[0], values[1], values[2], whose(semctl(set, 0, GETPID)));
}

static void sets(void)
{
    unsigned short values[3] = {7, 8, 9};
    struct semid_ds it;
    struct sembuf operations[2] = {{0, -2, 0}, {2, 3, SEM_UNDO}};
    int set = semget(IPC_PRIVATE, 3, 0600);
    tell_set(set);
    tell("semctl SETALL", semctl(set, 0, SETALL, (union semun){.array = values}));
    tell("semctl SETVAL", semctl(set, 1, SETVAL, (union semun){.val = 20}));
    tell("semop", semop(set, operations, 2));
    tell_set(set);
    tell("semctl GETVAL", semctl(set, 2, GETVAL));
    tell("semctl GETNCNT", semctl(set, 2, GETNCNT));
    tell("semctl GETZCNT", semctl(set, 2, GETZCNT));
    semctl(set, 0, IPC_STAT, (union semun){.buf = &it});
    it.sem_perm.mode = 0400;
    tell("semctl IPC_SET", semctl(set, 0, IPC_SET, (union semun){.buf = &it}));
    tell_set(set);
    tell("semctl IPC_RMID", semctl(set, 0, IPC_RMID));
    tell("semctl GETVAL", semctl(set, 0, GETVAL));
}

static void tell_segment(int segment)
{
    struct shmid_ds it;
    tell("shmctl IPC_STAT", shmctl(segment, IPC_STAT, &it));
    tell_perm(&it.shm_perm);
    printf("    %zu bytes, attached %lu times, created by %s, last by %s\n", it.shm_segsz, (unsigned long)it.shm_nattch, whose(it.shm_cpid), whose(it.shm_lpid));
    printf("    attached %s, detached %s, changed %s\n", when(it.shm_atime), when(it.shm_dtime), when(it.shm_ctime));
}

static void segments(void)
{
    struct shmid_ds it;
    int segment = shmget(IPC_PRIVATE, 5000, 0600);
    tell_segment(segment);
    char *one = shmat(segment, NULL, 0);
    const char *other = shmat(segment, NULL, SHM_RDONLY);
    strcpy(one + 4990, "written");
    printf("shmat: %s %s\n", one == other ? "one place," : "two places,", other + 4990);
    tell_segment(segment);
    shmctl(segment, IPC_STAT, &it);
    it.shm_perm.mode = 0640;
    tell("shmctl IPC_SET", shmctl(segment, IPC_SET, &it));
    tell("shmdt", shmdt(one));
    printf("shmat at the same place: %s\n", shmat(segment, one + 100, SHM_RND) == one ? one + 4990 : strerrorname_np(errno));
    printf("shmat over it: %s\n", shmat(segment, one, SHM_REMAP) == one ? one + 4990 : strerrorname_np(errno));
    printf("shmat where it is: %s\n", shmat(segment, one, 0) == one ? one + 4990 : strerrorname_np(errno));
    tell("shmdt", shmdt(one));
    tell("shmdt", shmdt(other));
    tell_segment(segment);
    one = shmat(segment, NULL, 0);
    printf("shmat: %s\n", one + 4990);
    tell("shmctl IPC_RMID", shmctl(segment, IPC_RMID, NULL));
    tell_segment(segment);
    tell("shmdt", shmdt(one));
    tell("shmctl IPC_STAT", shmctl(segment, IPC_STAT, &it));
}

int main(void)
{
    began = time(NULL);
    queues();
    sets();
    segments();
    return 0;
}
