/* A signal ends a wait with EINTR, also where its handler was set with SA_RESTART, and the handler may make calls; a thread is cancelled in its
   wait. What neither ended can be used afterwards. */
#define _GNU_SOURCE
#include <errno.h>
#include <pthread.h>
#include <signal.h>
#include <stdio.h>
#include <string.h>
#include <sys/msg.h>
#include <sys/sem.h>
#include <unistd.h>

static int queue, set;

/* Raises the second semaphore. */
static void on_alarm(int signal)
{
    struct sembuf up = {1, 1, 0};
    (void)signal;
    if (semop(set, &up, 1) < 0)
        perror("semop");
}

static void tell(const char *call, long answer)
{
    printf("%s: %s\n", call, answer < 0 ? strerrorname_np(errno) : "granted");
}

/* Sends the signal when the first thread waits. */
static void *interrupt(void *first)
{
    while (semctl(set, 0, GETNCNT) == 0)
        usleep(10000);
    pthread_kill(*(pthread_t *)first, SIGALRM);
    return NULL;
}

static void *receive(void *unused)
{
    struct { long type; char text[8]; } received;
    msgrcv(queue, &received, sizeof received.text, 1, 0);
    return unused;
}

int main(void)
{
    struct { long type; char text[8]; } message = {1, "hello"};
    struct sigaction action = {.sa_handler = on_alarm, .sa_flags = SA_RESTART};
    struct sembuf down = {0, -1, 0};
    pthread_t waiting, first = pthread_self();
    void *result;
    queue = msgget(IPC_PRIVATE, 0600);
    set = semget(IPC_PRIVATE, 2, 0600);
    sigaction(SIGALRM, &action, NULL);
    pthread_create(&waiting, NULL, interrupt, &first);
    tell("semop", semop(set, &down, 1));
    pthread_join(waiting, NULL);
    alarm(2);
    tell("msgrcv", msgrcv(queue, &message, sizeof message.text, 0, 0));
    printf("the handler was called %d times\n", semctl(set, 1, GETVAL));
    pthread_create(&waiting, NULL, receive, NULL);
    usleep(100000);
    pthread_cancel(waiting);
    pthread_join(waiting, &result);
    printf("the thread was %s\n", result == PTHREAD_CANCELED ? "cancelled" : "not cancelled");
    tell("msgsnd", msgsnd(queue, &message, 5, 0));
    tell("msgrcv", msgrcv(queue, &message, sizeof message.text, 1, IPC_NOWAIT));
    return msgctl(queue, IPC_RMID, NULL) < 0 || semctl(set, 0, IPC_RMID) < 0;
}
