#include "ipcsh_sysv.h"

#include <pthread.h>
#include <stdio.h>
#include <string.h>

enum { REQUEST = 1, CLIENTS = 3 };
struct message { long type; char text[64]; };
static int queue;

static void *client(void *handle)
{
    static int count;
    int number = __sync_add_and_fetch(&count, 1);
    struct message it = { REQUEST, "" };
    ipcsh_use(handle);
    sprintf(it.text, "%d", REQUEST + number);
    msgsnd(queue, &it, strlen(it.text) + 1, 0);
    msgrcv(queue, &it, sizeof it.text, REQUEST + number, 0);
    return NULL;
}

int main(void)
{
    struct ipcsh_client who[1 + CLIENTS] = { { .uid = 1000, .gid = 1000 }, { .uid = 1001, .gid = 1000 }, { .uid = 1002, .gid = 1000 }, { .uid = 33, .gid = 33 } };
    ipcsh *handles[1 + CLIENTS];
    pthread_t threads[CLIENTS];
    struct message it;
    const struct ipcsh_limits limits = IPCSH_DEFAULT_LIMITS;
    if (ipcsh_open(&limits, who, 1 + CLIENTS, handles))
        return 1;
    ipcsh_use(handles[0]);
    queue = msgget(5, IPC_CREAT | 0666);
    for (int i = 0; i < CLIENTS; i++)
        pthread_create(&threads[i], NULL, client, handles[1 + i]);
    for (int i = 0; i < CLIENTS; i++) {
        msgrcv(queue, &it, sizeof it.text, REQUEST, 0);
        sscanf(it.text, "%ld", &it.type);
        strcpy(it.text, "answered");
        msgsnd(queue, &it, sizeof "answered", 0);
    }
    for (int i = 0; i < CLIENTS; i++)
        pthread_join(threads[i], NULL);
    printf("%d clients are answered\n", CLIENTS);
    msgctl(queue, IPC_RMID, NULL);
    return 0;
}
