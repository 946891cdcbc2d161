/* A shared memory segment: two processes attach it, it is marked for removal, and it goes with its last attachment. */
#include <sys/ipc.h>
#include <sys/shm.h>
#include <sys/wait.h>
#include <unistd.h>

int main(void) {
    struct shmid_ds status;
    int segment = shmget(0x77, 10000, IPC_CREAT | 0640);
    char *memory = shmat(segment, NULL, 0);
    shmctl(segment, IPC_STAT, &status);
    pid_t child = fork();
    if (child == 0) {
        char *twice = shmat(segment, NULL, SHM_RDONLY);
        shmctl(segment, IPC_STAT, &status);
        shmdt(memory);
        shmctl(segment, IPC_RMID, NULL);
        shmget(0x77, 10000, 0);
        usleep(300000);
        shmdt(twice);
        shmctl(segment, IPC_STAT, &status);
        _exit(0);
    }
    usleep(150000);
    status.shm_perm.mode = 0600;
    shmctl(segment, IPC_SET, &status);
    shmctl(segment, IPC_STAT, &status);
    shmdt(memory);
    waitpid(child, NULL, 0);
    return 0;
}
