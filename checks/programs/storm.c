/* A timer's signal comes every 3 ms, and its handler makes a call, while four threads count under a lock and exchange messages. Then threads that wait
   are cancelled, again and again. */
#define _GNU_SOURCE
#include <errno.h>
#include <pthread.h>
#include <signal.h>
#include <stdio.h>
#include <sys/msg.h>
#include <sys/sem.h>
#include <sys/time.h>

enum { THREADS = 4, EACH = 50, ROUNDS = 10 };

struct message {
    long type;
    char text[4];
};

static int set, queue, counted;

static int change(unsigned short number, short by)
{
    struct sembuf operation = {number, by, SEM_UNDO};
    return semop(set, &operation, 1);
}

static void on_alarm(int signal)
{
    int error = errno;
    (void)signal;
    if (change(1, 1) < 0)
        perror("semop in the handler");
    errno = error;
}

/* Makes a call again as long as a signal interrupts it. */
#define AGAIN(call)                          \
    do                                       \
        errno = 0;                           \
    while ((call) < 0 && errno == EINTR);    \
    if (errno)                               \
        perror(#call)

static void *work(void *unused)
{
    struct message message = {1, "abc"};
    for (int at = 0; at < EACH; at++) {
        AGAIN(change(0, -1));
        int before = counted;
        counted = before + 1;
        AGAIN(change(0, 1));
        AGAIN(msgsnd(queue, &message, 3, 0));
        AGAIN(msgrcv(queue, &message, 3, 1, 0));
    }
    return unused;
}

static void *receive(void *unused)
{
    struct message message;
    if (msgrcv(queue, &message, 3, 2, 0) < 0)
        perror("msgrcv");
    return unused;
}

static int cancel_all(void)
{
    pthread_t threads[THREADS];
    int cancelled = 0;
    for (int at = 0; at < THREADS; at++)
        pthread_create(threads + at, NULL, receive, NULL);
    for (int at = 0; at < THREADS; at++)
        pthread_cancel(threads[at]);
    for (int at = 0; at < THREADS; at++) {
        void *result;
        pthread_join(threads[at], &result);
        cancelled += result == PTHREAD_CANCELED;
    }
    return cancelled;
}

int main(void)
{
    struct sigaction action = {.sa_handler = on_alarm, .sa_flags = SA_RESTART};
    struct itimerval often = {{0, 3000}, {0, 3000}}, never = {{0, 0}, {0, 0}};
    pthread_t threads[THREADS];
    int cancelled = 0;
    set = semget(IPC_PRIVATE, 2, 0600);
    queue = msgget(IPC_PRIVATE, 0600);
    semctl(set, 0, SETVAL, 1);
    sigaction(SIGALRM, &action, NULL);
    setitimer(ITIMER_REAL, &often, NULL);
    for (int at = 0; at < THREADS; at++)
        pthread_create(threads + at, NULL, work, NULL);
    for (int at = 0; at < THREADS; at++)
        pthread_join(threads[at], NULL);
    setitimer(ITIMER_REAL, &never, NULL);
    for (int round = 0; round < ROUNDS; round++)
        cancelled += cancel_all();
    printf("counted %d, the value is %d, %d threads cancelled\n", counted, semctl(set, 0, GETVAL), cancelled);
    return semctl(set, 0, IPC_RMID) < 0 || msgctl(queue, IPC_RMID, NULL) < 0;
}
