/* A daemon with a queue of jobs, a set of semaphores and a segment. It forks three workers: one serves the jobs by a pool of threads, one holds a
 * semaphore and executes this program anew, and one is killed while a thread of it waits. All look at the numbers of processes. */
#define _GNU_SOURCE
#include <pthread.h>
#include <signal.h>
#include <stdio.h>
#include <stdlib.h>
#include <sys/ipc.h>
#include <sys/msg.h>
#include <sys/sem.h>
#include <sys/shm.h>
#include <sys/wait.h>
#include <unistd.h>

enum { SLOTS, NEVER, HELD, COUNT };

static int queue, set, segment;
static void *memory;

static void operate(int semaphore, int amount) {
    struct sembuf operation = {semaphore, amount, SEM_UNDO};
    semop(set, &operation, 1);
}

static void look(void) {
    struct shmid_ds state;
    shmctl(segment, IPC_STAT, &state);
    semctl(set, SLOTS, GETVAL);
    semctl(set, SLOTS, GETPID);
}

static void look_at_queue(void) {
    struct msqid_ds state;
    msgctl(queue, IPC_STAT, &state);
}

static void send_job(long type) {
    struct { long type; char text[4]; } job = {type, "job"};
    msgsnd(queue, &job, sizeof job.text, 0);
}

static void *serve(void *type) {
    struct { long type; char text[8]; } job;
    msgrcv(queue, &job, sizeof job.text, (long)type, 0);
    operate(SLOTS, -1);
    return NULL;
}

static void *wait_for_ever(void *nothing) {
    operate(NEVER, -1);
    return nothing;
}

static void pool(void) {
    pthread_t threads[3];
    for (long i = 0; i < 3; i++)
        pthread_create(&threads[i], NULL, serve, (void *)(i + 1));
    for (int i = 0; i < 3; i++)
        pthread_join(threads[i], NULL);
    look();
    look_at_queue();
    shmdt(memory);
}

static void execute(void) {
    char ids[64];
    operate(SLOTS, -1);
    snprintf(ids, sizeof ids, "%d %d", set, segment);
    execl("/proc/self/exe", "daemon", ids, (char *)NULL);
}

static void be_killed(void) {
    pthread_t thread;
    pthread_create(&thread, NULL, wait_for_ever, NULL);
    operate(HELD, 1);
    pause();
}

static pid_t worker(void (*work)(void)) {
    pid_t child = fork();
    if (child == 0) {
        work();
        _exit(0);
    }
    usleep(200000);
    return child;
}

static void make(void) {
    queue = msgget(IPC_PRIVATE, 0600);
    set = semget(IPC_PRIVATE, COUNT, 0600);
    segment = shmget(IPC_PRIVATE, 100, 0600);
    memory = shmat(segment, NULL, 0);
    semctl(set, SLOTS, SETVAL, 4);
}

static void remove_all(void) {
    shmctl(segment, IPC_RMID, NULL);
    semctl(set, 0, IPC_RMID);
    msgctl(queue, IPC_RMID, NULL);
}

int main(int count, char **words) {
    if (count > 1) {
        sscanf(words[1], "%d %d", &set, &segment);
        look();
        return 0;
    }
    make();
    send_job(1);
    send_job(2);
    pid_t pooled = worker(pool);
    look_at_queue();
    send_job(3);
    waitpid(pooled, NULL, 0);
    look();
    look_at_queue();
    waitpid(worker(execute), NULL, 0);
    look();
    pid_t killed = worker(be_killed);
    semctl(set, NEVER, GETNCNT);
    kill(killed, SIGKILL);
    waitpid(killed, NULL, 0);
    semctl(set, NEVER, GETNCNT);
    semctl(set, HELD, GETVAL);
    semctl(set, HELD, GETPID);
    look();
    remove_all();
    return 0;
}
