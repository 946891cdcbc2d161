/* A process that is forked while another thread waits, with a segment attached: what the child is answered, and that the parent goes on. */
#define _GNU_SOURCE
#include <errno.h>
#include <pthread.h>
#include <stdio.h>
#include <string.h>
#include <sys/msg.h>
#include <sys/shm.h>
#include <sys/wait.h>
#include <unistd.h>

static int queue;

static void *receive(void *unused)
{
    struct { long type; char text; } message;
    printf("the thread's msgrcv: %zd\n", msgrcv(queue, &message, 1, 0, 0));
    return unused;
}

static void be_child(char *shared)
{
    struct { long type; char text; } message = {1, 'x'};
    printf("the child's msgsnd: %s\n", msgsnd(queue, &message, 1, 0) < 0 ? strerrorname_np(errno) : "granted");
    printf("the child's msgget: %s\n", msgget(IPC_PRIVATE, 0600) < 0 ? strerrorname_np(errno) : "granted");
    strcpy(shared, "by the child");
    fflush(stdout);
    _exit(0);
}

int main(void)
{
    struct { long type; char text; } message = {1, 'x'};
    pthread_t waiting;
    int status, segment = shmget(IPC_PRIVATE, 100, 0600);
    char *shared = shmat(segment, NULL, 0);
    queue = msgget(IPC_PRIVATE, 0600);
    pthread_create(&waiting, NULL, receive, NULL);
    usleep(100000);
    fflush(stdout);
    pid_t child = fork();
    if (child == 0)
        be_child(shared);
    waitpid(child, &status, 0);
    int sent = msgsnd(queue, &message, 1, 0);
    pthread_join(waiting, NULL);
    printf("the parent's msgsnd: %d\n", sent);
    printf("the segment is written %s\n", shared);
    printf("another child: %s\n", wait(NULL) < 0 ? strerrorname_np(errno) : "there");
    return shmdt(shared);
}
