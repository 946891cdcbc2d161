/*
 * A thread that waits for a message for long sleeps: while it waits, the process takes less than half of a processor's time. It has the message
 * that is sent then.
 */
#include "ipcsh.h"

#include <pthread.h>
#include <stdio.h>
#include <stdlib.h>
#include <time.h>

static void *receive(void *handle)
{
    static char text[6];
    struct ipcsh_reply reply;
    return ipcsh_msgrcv(handle, 0, 0, text, 5, 0, 0, &reply) ? NULL : text;
}

static void sleep_tenth(void)
{
    struct timeval nap = {0, 100000};
    select(0, NULL, NULL, NULL, &nap);
}

int main(void)
{
    struct ipcsh_limits limits = IPCSH_DEFAULT_LIMITS;
    struct ipcsh_client clients[2] = {{.uid = 100, .gid = 10}, {.uid = 100, .gid = 10}};
    ipcsh *handles[2];
    struct ipcsh_reply reply;
    uint32_t queue;
    pthread_t waiter;
    void *text;
    if (ipcsh_open(&limits, clients, 2, handles) || ipcsh_msgget(handles[0], 0, 1, IPCSH_CREAT | 0600, &reply, &queue))
        return 1;
    if (pthread_create(&waiter, NULL, receive, handles[1]))
        return 1;
    sleep_tenth();
    clock_t before = clock();
    for (int i = 0; i < 4; i++)
        sleep_tenth();
    printf("while a call waits its thread %s\n", clock() - before < CLOCKS_PER_SEC / 5 ? "sleeps" : "is busy");
    int code = ipcsh_msgsnd(handles[0], 0, queue, 1, "hello", 5, 0, &reply);
    if (pthread_join(waiter, &text))
        return 1;
    printf("msgsnd: %d, msgrcv: %s\n", code, text ? (char *)text : "failed");
    for (int i = 0; i < 2; i++)
        ipcsh_close(handles[i]);
    return 0;
}
