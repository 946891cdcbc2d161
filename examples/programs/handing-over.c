/* A thread waits for a message that another one sends; then the ways of msgrcv to choose one. */
#define _GNU_SOURCE
#include <errno.h>
#include <pthread.h>
#include <stdio.h>
#include <string.h>
#include <sys/msg.h>
#include <unistd.h>

struct message {
    long type;
    char text[16];
};

static int queue;

static void receive(size_t size, long type, int flags)
{
    struct message message = {0};
    ssize_t length = msgrcv(queue, &message, size, type, flags);
    if (length < 0)
        printf("of type %ld: %s\n", type, strerrorname_np(errno));
    else
        printf("of type %ld: %zd bytes of type %ld: %.*s\n", type, length, message.type, (int)length, message.text);
}

static void *wait_for_seven(void *unused)
{
    receive(16, 7, 0);
    return unused;
}

static void send(long type, const char *text)
{
    struct message message = {.type = type};
    memcpy(message.text, text, strlen(text));
    if (msgsnd(queue, &message, strlen(text), 0) < 0)
        perror("msgsnd");
}

int main(void)
{
    pthread_t waiting;
    queue = msgget(IPC_PRIVATE, 0600);
    pthread_create(&waiting, NULL, wait_for_seven, NULL);
    usleep(100000);
    send(3, "not this one");
    send(7, "hello");
    pthread_join(waiting, NULL);
    send(5, "five");
    send(4, "four");
    send(4, "another four");
    receive(16, 3, MSG_EXCEPT);
    receive(16, -4, 0);
    receive(3, 0, 0);
    receive(3, 0, MSG_NOERROR);
    receive(16, 9, IPC_NOWAIT);
    receive(16, 0, 0);
    receive(16, 0, IPC_NOWAIT);
    return msgctl(queue, IPC_RMID, NULL) < 0;
}
