"""Compares what ipcwho says with what the machine's own kernel does, as root, on x86-64.

    who_kernel.py PROGRAM SEED COUNT    as many objects of random modes, owners and creators

In an IPC namespace of its own it makes queues, semaphore sets and segments, and starts processes: the owner, the creator, a member of a group
by a supplementary one, a stranger, root without capabilities, and root and a stranger with CAP_IPC_OWNER, CAP_SYS_ADMIN or both. PROGRAM is
ipcwho; it prints what each may do. Then each tries to read, to write and to set each object. Last each tries to remove it, in a
random order, until one may. Each answer must be the one that PROGRAM gave: allowed, EACCES or EPERM.
"""

import ctypes
import errno
import json
import os
import random
import re
import socket
import struct
import subprocess
import sys

CLONE_NEWIPC = 0x08000000
PR_SET_KEEPCAPS = 8
SYS_CAPSET = 126
CAP_IPC_OWNER, CAP_SYS_ADMIN = 1 << 15, 1 << 21
IPC_NOWAIT, SHM_RDONLY = 0o4000, 0o10000
IPC_RMID, IPC_SET, IPC_STAT = 0, 1, 2
GETVAL, SETVAL = 12, 16
# User, group, supplementary groups and capabilities of each process. Objects are owned and created by the first three.
USERS = [
    ("owner", 20001, 20011, [], 0),
    ("creator", 20002, 20012, [], 0),
    ("member", 20003, 20013, [20021, 20011], 0),
    ("stranger", 20004, 20014, [20031], 0),
    ("root-without", 0, 0, [], 0),
    ("root-owner", 0, 0, [], CAP_IPC_OWNER),
    ("root-admin", 0, 0, [], CAP_SYS_ADMIN),
    ("stranger-both", 20004, 20014, [], CAP_IPC_OWNER | CAP_SYS_ADMIN),
]
GROUPS = [20011, 20012, 20013, 20021, 20022]
LIBC = ctypes.CDLL(None, use_errno=True)
LIBC.shmat.restype = ctypes.c_void_p
LIBC.shmat.argtypes = [ctypes.c_int, ctypes.c_void_p, ctypes.c_int]
LIBC.shmdt.argtypes = [ctypes.c_void_p]


def become(user, group, groups, capabilities):
    """Takes on these credentials and keeps these capabilities alone."""
    os.setgroups(groups)
    os.setresgid(group, group, group)
    LIBC.prctl(PR_SET_KEEPCAPS, 1, 0, 0, 0)
    os.setresuid(user, user, user)
    head = struct.pack("=Ii", 0x20080522, 0)
    sets = struct.pack("=6I", capabilities, capabilities, 0, 0, 0, 0)
    if LIBC.syscall(SYS_CAPSET, head, sets) != 0:
        raise OSError(ctypes.get_errno(), "capset")


def status_set(user, group, mode):
    """What IPC_SET reads: the start of msqid64_ds, semid64_ds or shmid64_ds. msg_qbytes stands at 88, and is MSGMNB."""
    text = bytearray(256)
    struct.pack_into("=iIIIII", text, 0, 0, user, group, 0, 0, mode)
    struct.pack_into("=Q", text, 88, 16384)
    return ctypes.create_string_buffer(bytes(text), 256)


def control(kind, number, command, status=None):
    status = ctypes.create_string_buffer(256) if status is None else status
    if kind == "set":
        return LIBC.semctl(number, 0, command, status)
    return (LIBC.msgctl if kind == "queue" else LIBC.shmctl)(number, command, status)


def attach(number, flags):
    address = LIBC.shmat(number, None, flags)
    if address in (None, ctypes.c_void_p(-1).value):
        return -1
    return LIBC.shmdt(address)


def operate(number, added):
    return LIBC.semop(number, ctypes.create_string_buffer(struct.pack("=Hhh", 0, added, IPC_NOWAIT)), 1)


def calls(kind, number, owned):
    """The calls by what they try: reading, writing and setting."""
    message = ctypes.create_string_buffer(struct.pack("=q", 1) + b"\0" * 8)
    setting = [lambda: control(kind, number, IPC_SET, status_set(*owned))]
    reading = [lambda: control(kind, number, IPC_STAT)]
    if kind == "queue":
        reading.append(lambda: LIBC.msgrcv(number, message, 0, 0, IPC_NOWAIT))
        writing = [lambda: LIBC.msgsnd(number, message, 0, IPC_NOWAIT)]
    elif kind == "set":
        reading += [lambda: operate(number, 0), lambda: LIBC.semctl(number, 0, GETVAL, 0)]
        writing = [lambda: operate(number, 1), lambda: LIBC.semctl(number, 0, SETVAL, 0)]
    else:
        reading.append(lambda: attach(number, SHM_RDONLY))
        writing = [lambda: attach(number, 0)]
    return reading, writing, setting


def answer(call):
    """What the kernel answers: allowed, also where the call fails for what the object holds, or the error."""
    ctypes.set_errno(0)
    if call() != -1 or ctypes.get_errno() in (errno.ENOMSG, errno.EAGAIN):
        return "allowed"
    return errno.errorcode[ctypes.get_errno()]


def serve(lines):
    """Does what each line asks, and answers it."""
    for line in lines:
        kind, number, owned, what = json.loads(line)
        if what == "remove":
            answers = [answer(lambda: control(kind, number, IPC_RMID))]
        else:
            answers = [answer(call) for call in calls(kind, number, owned)[["read", "write", "set"].index(what)]]
        lines.write(json.dumps(answers) + "\n")
        lines.flush()


class Worker:
    """A process with the credentials of a user."""

    def __init__(self, user):
        self.name = user[0]
        mine, theirs = socket.socketpair()
        self.pid = os.fork()
        if self.pid == 0:
            mine.close()
            become(*user[1:])
            with theirs.makefile("rw") as lines:
                serve(lines)
            os._exit(0)
        theirs.close()
        self.lines = mine.makefile("rw")
        mine.close()

    def ask(self, *words):
        self.lines.write(json.dumps(words) + "\n")
        self.lines.flush()
        return json.loads(self.lines.readline())


def made(kind, creator, group, owned):
    """The identifier of a new object of this creator, which then sets its owner and mode."""
    ours, theirs = os.pipe()
    if os.fork() == 0:
        become(creator, group, [], 0)
        if kind == "queue":
            number = LIBC.msgget(0, 0o600)
        else:
            number = LIBC.semget(0, 1, 0o600) if kind == "set" else LIBC.shmget(0, 4096, 0o600)
        if number < 0 or control(kind, number, IPC_SET, status_set(*owned)) != 0:
            number = -1
        os.write(theirs, str(number).encode())
        os._exit(0)
    os.close(theirs)
    with os.fdopen(ours) as pipe:
        number = int(pipe.read())
    os.wait()
    if number < 0:
        raise OSError("an object can't be made")
    return number


def made_objects(chance, count):
    """The objects by kind and identifier, each with its owner, group and mode."""
    objects = {}
    for _ in range(count):
        kind = chance.choice(["queue", "set", "segment"])
        owned = chance.choice(USERS[:3])[1], chance.choice(GROUPS), chance.choice([chance.randrange(512), chance.choice([0o200, 0o400, 0o040, 0o020, 0o004, 0o002])])
        creator = chance.choice(USERS[:3])[1]
        objects[kind, made(kind, creator, chance.choice(GROUPS), owned)] = owned
    return objects


def told(program, pids):
    """What the program says: by kind, identifier and process what each of read, write and control is answered."""
    printed = subprocess.run([program, *map(str, pids)], stdout=subprocess.PIPE, check=True, text=True).stdout
    answers = {}
    head = ("", 0)
    for line in printed.splitlines():
        words = line.split()
        if not line.startswith(" "):
            head = words[0], int(words[1])
            continue
        parts = re.fullmatch(r"  pid (\d+) \(.*\): read (.*), write (.*), set and remove (.*)", line)
        answers[(*head, int(parts[1]))] = [said(part) for part in parts.groups()[1:]]
    return answers


def said(part):
    refusal = re.fullmatch(r"no \((\w+), [a-z-]+\)", part)
    return refusal[1] if refusal else "allowed"


class Comparison:
    """Counts, and prints what differs."""

    def __init__(self):
        self.passed = self.failed = 0

    def compare(self, what, wanted, answers):
        for one in answers:
            if one == wanted:
                self.passed += 1
            else:
                self.failed += 1
                print(f"FAILED {what}: ipcwho says {wanted}, and the kernel {one}")


def removed(chance, key, workers, answers, comparison):
    """Each tries to remove the object, until one may."""
    for worker in chance.sample(workers, len(workers)):
        done = worker.ask(*key, None, "remove")
        comparison.compare(f"{key} {worker.name} remove", answers[(*key, worker.pid)][2], done)
        if done == ["allowed"]:
            return


def judge(program, seed, count):
    if LIBC.unshare(CLONE_NEWIPC) != 0:
        sys.exit(f"who_kernel: unshare: {os.strerror(ctypes.get_errno())}")
    chance = random.Random(seed)
    objects = made_objects(chance, count)
    workers = [Worker(user) for user in USERS]
    comparison = Comparison()
    # A process has its credentials once it has answered.
    for worker in workers:
        worker.ask(*next(iter(objects)), objects[next(iter(objects))], "read")
    answers = told(program, [worker.pid for worker in workers])
    if len(answers) != len(objects) * len(workers):
        comparison.failed += 1
        print(f"FAILED rows: {len(answers)} for {len(objects)} objects and {len(workers)} processes")
    for key, owned in objects.items():
        for worker in workers:
            for place, what in enumerate(["read", "write", "set"]):
                comparison.compare(f"{key} {oct(owned[2])} {worker.name} {what}", answers[(*key, worker.pid)][place], worker.ask(*key, owned, what))
    for key in objects:
        removed(chance, key, workers, answers, comparison)
    print(f"{comparison.passed} passed, {comparison.failed} failed")
    return comparison.failed != 0


if __name__ == "__main__":
    if len(sys.argv) != 4:
        sys.exit(__doc__)
    sys.exit(judge(sys.argv[1], int(sys.argv[2]), int(sys.argv[3])))
