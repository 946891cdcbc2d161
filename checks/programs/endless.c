/* Sends and receives messages until the script of the run is as long as it may be. */
#define _GNU_SOURCE
#include <errno.h>
#include <stdio.h>
#include <string.h>
#include <sys/msg.h>

static struct { long type; char text[8192]; } message = {1, ""};

int main(void)
{
    int queue = msgget(IPC_PRIVATE, 0600), sent = 0;
    while (sent < 2000 && msgsnd(queue, &message, sizeof message.text, 0) == 0 && msgrcv(queue, &message, sizeof message.text, 0, 0) == 8192)
        sent++;
    printf("%s messages were sent, then %s\n", sent > 1000 && sent < 1050 ? "about 1020" : "another number of", strerrorname_np(errno));
    return 0;
}
