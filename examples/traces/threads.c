/* Threads of one process share what SEM_UNDO undoes and what is attached. */
#include <pthread.h>
#include <sys/ipc.h>
#include <sys/sem.h>
#include <sys/shm.h>
#include <sys/wait.h>
#include <unistd.h>

static int set;
static void *memory;

static void *take(void *amount) {
    struct sembuf operation = {0, -1, SEM_UNDO};
    semop(set, &operation, 1);
    if (amount)
        shmdt(memory);
    return NULL;
}

static void with_threads(void) {
    pthread_t threads[3];
    int segment = shmget(IPC_PRIVATE, 100, 0600);
    memory = shmat(segment, NULL, 0);
    for (int i = 0; i < 3; i++)
        pthread_create(&threads[i], NULL, take, i == 2 ? &set : NULL);
    for (int i = 0; i < 3; i++)
        pthread_join(threads[i], NULL);
    shmctl(segment, IPC_RMID, NULL);
    semctl(set, 0, GETVAL);
    _exit(0);
}

int main(void) {
    set = semget(IPC_PRIVATE, 1, 0600);
    semctl(set, 0, SETVAL, 4);
    pid_t child = fork();
    if (child == 0)
        with_threads();
    waitpid(child, NULL, 0);
    semctl(set, 0, GETVAL);
    return semctl(set, 0, IPC_RMID) != 0;
}
