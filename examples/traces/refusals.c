/* Refusals: EACCES and EPERM to another user, EEXIST, ENOENT, EINVAL, E2BIG, ENOMSG, EAGAIN, EFBIG, ERANGE, EIDRM. It begins as root. */
#define _GNU_SOURCE
#include <stdio.h>
#include <sys/ipc.h>
#include <sys/msg.h>
#include <sys/sem.h>
#include <sys/shm.h>
#include <sys/types.h>
#include <sys/wait.h>
#include <grp.h>
#include <unistd.h>

static struct {
    long mtype;
    char mtext[10000];
} message = {1, "hello"};

static void another_user(int queue, int set, int segment) {
    struct msqid_ds status;
    struct sembuf take = {0, -1, 0};
    setgroups(0, NULL);
    setgid(65534);
    setuid(65534);
    setuid(0);
    msgget(0x51, 0600);
    msgrcv(queue, &message, 100, 0, IPC_NOWAIT);
    msgsnd(queue, &message, 5, IPC_NOWAIT);
    msgctl(queue, IPC_STAT, &status);
    msgctl(queue, IPC_RMID, NULL);
    semop(set, &take, 1);
    semctl(set, 0, SETVAL, 1);
    semctl(set, 0, GETVAL);
    shmat(segment, NULL, 0);
    shmat(segment, NULL, SHM_RDONLY);
    shmctl(segment, IPC_RMID, NULL);
    _exit(0);
}

static void of_a_queue(int queue) {
    msgget(0x51, IPC_CREAT | IPC_EXCL | 0600);
    msgget(0x59, 0);
    message.mtype = 0;
    msgsnd(queue, &message, 5, 0);
    message.mtype = 1;
    msgsnd(queue, &message, 10000, 0);
    msgsnd(queue, &message, 8000, IPC_NOWAIT);
    msgsnd(queue, &message, 8192, IPC_NOWAIT);
    msgsnd(queue, &message, 8192, IPC_NOWAIT);
    msgrcv(queue, &message, 4, 1, 0);
    msgrcv(queue, &message, 100, 7, IPC_NOWAIT);
    msgrcv(-1, &message, 100, 0, 0);
}

static void of_a_set(int set) {
    struct sembuf take = {0, -1, IPC_NOWAIT}, outside = {9, 1, 0}, most[2] = {{1, 32767, 0}, {1, 1, 0}};
    semget(0x52, 4, 0600);
    semget(0x59, 0, IPC_CREAT | 0600);
    semop(set, &take, 1);
    semop(set, &outside, 1);
    semop(set, most, 2);
    semctl(set, 9, GETVAL);
    semctl(set, 0, SETVAL, 32768);
}

int main(void) {
    int queue = msgget(0x51, IPC_CREAT | 0620);
    int set = semget(0x52, 3, IPC_CREAT | 0604);
    int segment = shmget(0x53, 4096, IPC_CREAT | 0604);
    of_a_queue(queue);
    of_a_set(set);
    shmget(0x53, 8192, 0600);
    shmget(0x59, 0, IPC_CREAT | 0600);
    shmdt((void *)0x10000000);
    pid_t child = fork();
    if (child == 0)
        another_user(queue, set, segment);
    waitpid(child, NULL, 0);
    child = fork();
    if (child == 0) {
        msgrcv(queue, &message, 100, 9, 0);
        _exit(0);
    }
    usleep(200000);
    msgctl(queue, IPC_RMID, NULL);
    waitpid(child, NULL, 0);
    msgctl(queue, IPC_RMID, NULL);
    semctl(set, 0, IPC_RMID);
    shmctl(segment, IPC_RMID, NULL);
    return 0;
}
