"""A semaphore as a lock between two processes of Python, by the functions of the C library."""

import ctypes
import os
import time

IPC_CREAT, IPC_EXCL, IPC_RMID, IPC_NOWAIT, SEM_UNDO, SETVAL, GETVAL = 0o1000, 0o2000, 0, 0o4000, 0o10000, 16, 12
libc = ctypes.CDLL(None, use_errno=True)


class Operation(ctypes.Structure):
    _fields_ = [("num", ctypes.c_ushort), ("op", ctypes.c_short), ("flags", ctypes.c_short)]


def operate(semaphores, *operations):
    array = (Operation * len(operations))(*operations)
    return libc.semop(semaphores, array, len(operations))


semaphores = libc.semget(0x4C, 2, IPC_CREAT | IPC_EXCL | 0o600)
libc.semctl(semaphores, 0, SETVAL, 1)
child = os.fork()
if child == 0:
    operate(semaphores, (0, -1, SEM_UNDO), (1, 1, 0))
    time.sleep(0.4)
    operate(semaphores, (0, 1, SEM_UNDO))
    os._exit(0)
time.sleep(0.2)
operate(semaphores, (0, -1, IPC_NOWAIT))
operate(semaphores, (1, -1, 0), (0, -1, SEM_UNDO))
operate(semaphores, (1, 0, IPC_NOWAIT), (0, 1, SEM_UNDO))
os.waitpid(child, 0)
libc.semctl(semaphores, 0, GETVAL)
libc.semctl(semaphores, 0, IPC_RMID)
