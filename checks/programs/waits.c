/* Two threads wait for a message that never comes. What their calls get in the end is told, and what a call gets after it. */
#define _GNU_SOURCE
#include <errno.h>
#include <pthread.h>
#include <stdio.h>
#include <string.h>
#include <sys/msg.h>

static int queue;

static void *receive(void *unused)
{
    struct { long type; char text; } message;
    if (msgrcv(queue, &message, 1, 0, 0) < 0)
        printf("msgrcv: %s\n", strerrorname_np(errno));
    return unused;
}

int main(void)
{
    pthread_t other;
    queue = msgget(IPC_PRIVATE, 0600);
    puts("ready");
    fflush(stdout);
    pthread_create(&other, NULL, receive, NULL);
    receive(NULL);
    pthread_join(other, NULL);
    if (msgget(IPC_PRIVATE, 0600) < 0)
        printf("msgget: %s\n", strerrorname_np(errno));
    return 3;
}
