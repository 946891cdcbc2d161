/* semtimedop: one whose time is over, one that is served in time, one that may not wait at all, and times that are none. */
#define _GNU_SOURCE
#include <errno.h>
#include <pthread.h>
#include <stdio.h>
#include <string.h>
#include <sys/sem.h>
#include <time.h>
#include <unistd.h>

static int set;

static double seconds(void)
{
    struct timespec now;
    clock_gettime(CLOCK_MONOTONIC, &now);
    return (double)now.tv_sec + (double)now.tv_nsec / 1e9;
}

/* Lowers the semaphore, and tells how that ended and whether it took as long as it should. */
static void take(const char *what, time_t whole, long parts, double least, double most)
{
    struct timespec timeout = {whole, parts};
    struct sembuf down = {0, -1, 0};
    double began = seconds();
    int error = semtimedop(set, &down, 1, &timeout) < 0 ? errno : 0;
    double took = seconds() - began;
    const char *when = took < least ? "too early" : took > most ? "too late" : "in time";
    printf("%s: %s, %s\n", what, error ? strerrorname_np(error) : "taken", when);
}

static void *give_later(void *unused)
{
    struct sembuf up = {0, 1, 0};
    usleep(200000);
    if (semop(set, &up, 1) < 0)
        perror("semop");
    return unused;
}

int main(void)
{
    pthread_t giver;
    set = semget(IPC_PRIVATE, 1, 0600);
    take("300 ms, and nobody gives", 0, 300000000, 0.3, 10);
    pthread_create(&giver, NULL, give_later, NULL);
    take("a minute, and one gives", 60, 0, 0.1, 30);
    pthread_join(giver, NULL);
    take("no time, and nobody gives", 0, 0, 0, 10);
    if (semctl(set, 0, SETVAL, 1) < 0)
        perror("semctl");
    take("no time, and the value is 1", 0, 0, 0, 10);
    take("a negative time", -1, 0, 0, 10);
    take("a second of nanoseconds", 0, 1000000000, 0, 10);
    return semctl(set, 0, IPC_RMID) < 0;
}
