"""Runs scripts by real processes on the System V IPC of the machine's own kernel, as root, and compares the rows with those of ipcsh.

    kernel.py run CLIENT SCRIPT ROWS                  prints the kernel's rows; ROWS are those of ipcsh, of which the bad lines are taken
    kernel.py compare CLIENT DIFFERENCES SCRIPT..     compares them with SCRIPT's .out; each difference is declared, and each that is is seen
    kernel.py random CLIENT PROGRAM SEED COUNT        compares random scripts with what the program prints, and shortens one that differs

CLIENT is the built lib/kernel_client.c. A client of a script is a process with its credentials, in an IPC namespace of its own for each
script; by fork and clone it is a process or a thread that another one begins. The kernel has no names of rules, so error rows are compared
without; times aren't compared, and what one event ended is, in any order. Where the kernel chooses identifiers it is told which to give
(sysctl, msg_next_id and its kin). It has no clients that are taken again, nor numbers of processes that one may choose: whether a client and
a number are free is asked here. It can't give a process another number, nor a thread credentials that it may not take.
"""

import ctypes
import multiprocessing
import os
import pathlib
import random
import re
import select
import signal
import subprocess
import sys
import tempfile
import time

import hostile

CLONE_NEWIPC = 0x08000000
# The system calls in which a client waits: semop, msgsnd, msgrcv, semtimedop (x86-64).
WAITING = {"65", "69", "70", "220"}
ERRORS = {1: "EPERM", 2: "ENOENT", 3: "ESRCH", 4: "EINTR", 7: "E2BIG", 11: "EAGAIN", 12: "ENOMEM", 13: "EACCES", 17: "EEXIST", 22: "EINVAL"}
ERRORS.update({24: "EMFILE", 27: "EFBIG", 28: "ENOSPC", 34: "ERANGE", 42: "ENOMSG", 43: "EIDRM"})
# CAP_SYS_ADMIN of a script is with CAP_KILL here, since it lets a client interrupt those of others.
CAPABILITIES = {"IPC_OWNER": 1 << 15, "SYS_ADMIN": 1 << 21 | 1 << 5, "SYS_RESOURCE": 1 << 24, "SETUID": 1 << 7, "SETGID": 1 << 6}
HAVE = int(re.search(r"CapPrm:\s*(\w+)", pathlib.Path("/proc/self/status").read_text())[1], 16)
SLOTS = {"q": "queues", "s": "sets", "m": "segments"}
LIMITS = {"first-seq": 0, "msgmax": 8192, "msgmnb": 16384, "semmsl": 32000, "semopm": 500, "shmmax": 33554432}
LIMITS.update(dict.fromkeys(SLOTS.values(), 128))
KINDS = {"msgget": "q", "semget": "s", "shmget": "m"}
FILES = {"q": "msg", "s": "sem", "m": "shm"}
# How many seconds pass between two moments that a script with deadlines tells apart, for each try, since a machine at work may let a deadline
# pass too late; and how long a client may take for a call.
STEPS = 0.2, 1, 3, 10
LONGEST = 20


class Stuck(Exception):
    """A client didn't answer, or couldn't be started."""


def number(word):
    """A number of a script: decimal, octal with a leading 0, or hexadecimal."""
    digits = word.lstrip("+-")
    value = int(digits, 16 if digits[:2] == "0x" else 8 if digits[:1] == "0" else 10)
    return -value if word[0] == "-" else value


def hexed(word):
    """A text of a script in hexadecimal."""
    return word[2:] if word[:2] == "x:" else word[2:].encode().hex()


def operation(word):
    parts = [number(it) for it in word.split(":")]
    return parts if len(parts) == 3 else [*parts, 0]


class Call:
    """A call of a client: its name, and its arguments as the kernel's client takes them but for identifiers that aren't known yet."""

    def __init__(self, name, *words):
        self.name, self.words = name, list(words)


def calls_of(line, words):
    """The calls of a client's line, one for each part of a command; a removal by key is one that begins with a get."""
    name, rest = words[1], words[2:]
    if name.encode() in hostile.OPTIONS:
        parts = [it.text.decode().split()[1:] + [it.get] for it in hostile.divided(0, line)]
        return [command(*it) for it in parts]
    if name in ("semop", "semtimedop"):
        fixed = 1 if name == "semop" else 2
        return [Call(name, *map(number, rest[:fixed]), [operation(it) for it in rest[fixed:]])]
    if name == "setall":
        return [Call(name, number(rest[0]), [number(it) for it in rest[1:]])]
    if name == "setcreds":
        groups = rest[2][len("groups=") :] if len(rest) > 2 else "="
        return [Call(name, number(rest[0]), number(rest[1]), groups)]
    if name in ("fork", "clone", "begin", "assume") or name == "interrupt" and rest[0][0].isalpha():
        return [Call(name, *rest)]
    if name == "msgsnd":
        ident, mtype, text, flags = rest
        return [Call(name, number(ident), number(flags), number(mtype), hexed(text))]
    if name == "shmwrite":
        return [Call(name, number(rest[0]), number(rest[1]), hexed(rest[2]))]
    kind = rest[:1] if name in ("stat", "set", "rmid") else []
    return [Call(name, *kind, *map(number, rest[len(kind) :]))]


def command(name, *words):
    """The call of a command with one option, whose get by key is last."""
    *words, get = words
    mode = next((value for option, value in zip(words, words[1:]) if option == "-p"), "644")
    option, value = words[words.index("-p") + 2 if "-p" in words else 0], words[-1]
    kind = option[1].lower()
    if name == "ipcs":
        return Call("list", kind)
    if name == "ipcmk":
        size = [number(value)] if kind != "q" else []
        return Call({"q": "msgget", "s": "semget", "m": "shmget"}[kind], 0, *size, int(mode.lstrip("="), 8) & 0o777)
    if get is None:
        return Call("rmid", kind, number(value))
    removal = calls_of(get, get.decode().split())[0]
    removal.then_removes = kind
    return removal


def process_of(program, user, group, options):
    """A process with these credentials."""
    saved = options.get("saved", f"{user}:{group}").split(":")
    mask = sum({CAPABILITIES[it] for it in options.get("caps", "").split(",") if it}) & HAVE
    words = [user, group, *map(number, saved), ",".join(str(number(it)) for it in options.get("groups", "").split(",") if it) or "-", f"{mask:x}"]
    return subprocess.Popen([program, *map(str, words)], stdin=subprocess.PIPE, stdout=subprocess.PIPE, stderr=subprocess.PIPE, bufsize=0)


class Client:
    """A client's thread, which is told its calls and answers them. `number` is that of its process in the script."""

    def __init__(self, name, number, sink, source):
        self.name, self.number, self.call, self.has_ended, self.text = name, number, None, False, b""
        self.sink, self.source, self.process, self.ids = sink, source, None, (0, 0)
        self.poll = select.poll()
        self.poll.register(source, select.POLLIN)

    @classmethod
    def alone(cls, program, name, number, *words):
        """The only thread of a process of its own."""
        process = process_of(program, *words)
        made = cls(name, number, process.stdin.fileno(), process.stdout.fileno())
        made.process, made.ids = process, (process.pid, process.pid)
        if made.answer() != ["ready"]:
            raise Stuck(f"client {name} can't have its credentials here: {process.stderr.read().decode()}")
        return made

    @classmethod
    def begun(cls, by, request, name, number, folder):
        """A process or a thread that a client begins."""
        path = f"{tempfile.mkdtemp(dir=folder)}/pipe"
        os.chmod(os.path.dirname(path), 0o777)
        for end in ("in", "out"):
            os.mkfifo(f"{path}.{end}")
            os.chmod(f"{path}.{end}", 0o666)
        made = cls(name, number, os.open(f"{path}.in", os.O_RDWR), os.open(f"{path}.out", os.O_RDONLY | os.O_NONBLOCK))
        by.ask(request, path)
        if by.answer()[1:] != ["0"]:
            raise Stuck(f"client {by.name} can't {request}")
        made.ids = tuple(int(it) for it in made.answer()[1:])
        return made

    def ask(self, *words):
        os.write(self.sink, (" ".join(map(str, words)) + "\n").encode())

    def has_answered(self, milliseconds):
        return b"\n" in self.text or bool(self.poll.poll(milliseconds))

    def answer(self):
        while b"\n" not in self.text:
            if not self.poll.poll(1000 * LONGEST):
                raise Stuck(f"client {self.name} doesn't answer")
            more = os.read(self.source, 1 << 16)
            if not more:
                return []
            self.text += more
        line, self.text = self.text.split(b"\n", 1)
        return line.decode().split()

    def looked_up(self, name):
        """A file of /proc of the thread."""
        return pathlib.Path(f"/proc/{self.ids[0]}/task/{self.ids[1]}/{name}").read_text()

    def is_gone(self):
        try:
            return self.looked_up("stat").rpartition(")")[2].split()[0] in "ZX"
        except OSError:
            return True

    def gone(self):
        """Waits until the thread has ended, with what the kernel does then."""
        began = time.monotonic()
        while not self.is_gone():
            if time.monotonic() - began > LONGEST:
                raise Stuck(f"client {self.name} doesn't end")
            time.sleep(0.001)
        self.has_ended = True

    def asleep(self):
        """None while it runs, or how often it has slept, while it waits in a call."""
        try:
            call, status = self.looked_up("syscall").split(), self.looked_up("status")
        except OSError:
            return None
        if not call or call[0] not in WAITING or not re.search(r"^State:\s+S", status, re.M):
            return None
        return re.search(r"^voluntary_ctxt_switches:\s*(\d+)", status, re.M)[1]

    def waits(self):
        """Whether the call that was asked waits: the client sleeps in it, twice in a row, and has not woken between."""
        began, seen = time.monotonic(), None
        while not self.has_answered(1):
            now = self.asleep()
            if now is not None and now == seen:
                return not self.has_answered(0)
            seen = now
            if time.monotonic() - began > LONGEST:
                raise Stuck(f"client {self.name} doesn't answer")
        return False

    def end(self):
        try:
            os.kill(self.ids[0], signal.SIGKILL)
        except ProcessLookupError:
            pass
        if self.process:
            self.process.communicate()
        else:
            os.close(self.sink)
            os.close(self.source)


class Slots:
    """The identifiers of a kind: each slot's sequence number, and the object in it."""

    def __init__(self, count, first):
        self.count, self.first, self.slots = count, first, {}

    def next(self):
        """The identifier of the next object, None where no slot is left."""
        for at in range(self.count):
            sequence, is_taken = self.slots.get(at, (self.first, False))
            if not is_taken and sequence <= 65535:
                return sequence * 32768 + at
        return None

    def made(self, ident):
        self.slots[ident % 32768] = (ident // 32768, True)

    def keep(self, idents):
        """Only these objects are left."""
        for at, (sequence, is_taken) in self.slots.items():
            if is_taken and sequence * 32768 + at not in idents:
                self.slots[at] = (sequence + 1, False)


def sysctl(name, value):
    pathlib.Path(f"/proc/sys/kernel/{name}").write_text(str(value))


class Kernel:
    """The clients of a script on the kernel, from its first call on."""

    def __init__(self, program, limits, clients, moments, step):
        if ctypes.CDLL(None, use_errno=True).unshare(CLONE_NEWIPC):
            raise Stuck("an IPC namespace of its own wants root")
        sysctl("msgmax", limits["msgmax"])
        sysctl("msgmnb", limits["msgmnb"])
        sysctl("msgmni", limits["queues"])
        sysctl("sem", f"{limits['semmsl']} 1024000000 {limits['semopm']} {limits['sets']}")
        sysctl("shmmax", limits["shmmax"])
        sysctl("shmmni", limits["segments"])
        self.slots = {kind: Slots(limits[SLOTS[kind]], limits["first-seq"]) for kind in FILES}
        self.program, self.folder = program, tempfile.TemporaryDirectory()
        os.chmod(self.folder.name, 0o711)
        self.clients = {name: Client.alone(program, name, at, *words) for at, (name, words) in enumerate(clients.items(), 1)}
        self.root = Client.alone(program, "root", 0, 0, 0, {"caps": "IPC_OWNER,SYS_ADMIN"})
        self.numbers, self.former = {it.ids[0]: it.number for it in self.clients.values()}, []
        self.place, self.clock, self.began = 0, 0, time.monotonic()
        # Of which process each client was a thread at each place.
        self.threads_at = {}
        # When each moment of the script comes, in seconds from the start.
        self.step, self.times = step, {it: at * step for at, it in enumerate(sorted({0, *moments}))} if moments else {}

    def set_clock(self, now):
        """Where a script has deadlines, its moments come one after the other in their order, so that those are over that it says are over."""
        if now > self.clock:
            self.clock = now
            if self.times:
                time.sleep(max(0, self.began + self.times[now] + self.step / 4 - time.monotonic()))

    def make(self, name, call):
        """The rows of an event, which is a call of a client."""
        client, self.place = self.clients[name], self.place + 1
        if client.call:
            return [f"{self.place}.0 {name} still waits"]
        own = self.own_row(client, call)
        self.threads_at[self.place] = {it.name: it.number for it in self.clients.values()}
        rows = [f"{self.place}.0 {name} {own or 'waits'}", *sorted(f"{self.place}.+ {it}" for it in self.settled(client))]
        if own is None:
            client.call = call
        if call.name in ("rmid", "shmdt", "exit", "exec", "kill"):
            for kind, slots in self.slots.items():
                lines = pathlib.Path(f"/proc/sysvipc/{FILES[kind]}").read_text().splitlines()[1:]
                slots.keep({int(it.split()[1]) for it in lines})
        removes = getattr(call, "then_removes", None)
        return rows + (self.make(name, Call("rmid", removes, int(own[3:]))) if removes and own[:3] == "id " else [])

    def own_row(self, client, call):
        """What the caller is answered, None where it waits."""
        if client.has_ended and call.name != "begin":
            return "error 3 ESRCH"
        if call.name in PROCESS_CALLS:
            return PROCESS_CALLS[call.name](self, client, *call.words)
        words = self.words_of(client, call)
        if isinstance(words, str):
            return words
        client.ask(*words)
        return None if client.waits() else self.row(call, client.answer())

    def threads(self, number):
        """The threads of the process of a number."""
        return [it for it in self.clients.values() if not it.has_ended and it.number == number]

    def taken(self, child, number=None):
        """Why a client can't be taken, or a number, and None where both can."""
        if number == 0:
            return "error 22 EINVAL"
        if not self.clients[child].has_ended:
            return "error 11 EAGAIN"
        return "error 17 EEXIST" if self.threads(number) else None

    def put(self, made):
        self.former.append(self.clients[made.name])
        self.clients[made.name], self.numbers[made.ids[0]] = made, made.number
        return "ok"

    def begin(self, client, pid, user, group, *options):
        if not client.has_ended:
            return "error 11 EAGAIN"
        words = number(user), number(group), dict(it.split("=", 1) for it in options)
        return self.taken(client.name, number(pid)) or self.put(Client.alone(self.program, client.name, number(pid), *words))

    def fork(self, client, child, pid):
        return self.taken(child, number(pid)) or self.put(Client.begun(client, "fork", child, number(pid), self.folder.name))

    def clone(self, client, child):
        return self.taken(child) or self.put(Client.begun(client, "clone", child, client.number, self.folder.name))

    def exec(self, client):
        client.ask("exec")
        if client.answer() != ["0", "0"]:
            raise Stuck(f"client {client.name} can't exec")
        # The thread that is left has the number of the process, whichever called (execve(2)).
        client.ids = client.ids[0], client.ids[0]
        if os.listdir(f"/proc/{client.ids[0]}/task") != [str(client.ids[0])]:
            raise Stuck(f"other threads are left after an exec of client {client.name}")
        for it in self.threads(client.number):
            it.has_ended = it is not client
        return "ok"

    def exit(self, client):
        client.ask("exit")
        client.gone()
        return "ok"

    def kill(self, client, pid):
        threads = self.threads(pid)
        row = signalled(client, "kill", threads)
        if row == "ok":
            for it in threads:
                it.gone()
        return row

    def interrupt(self, client, target):
        threads = self.threads(target) if isinstance(target, int) else [it for it in [self.clients[target]] if not it.has_ended]
        return signalled(client, "interrupt", threads)

    def status(self, kind, ident):
        """The words of IPC_STAT behind the permissions, none where there is no such object."""
        self.root.ask("stat", kind, ident)
        return self.root.answer()[8:]

    def words_of(self, client, call):
        """What the client is to do, or the answer where the kernel has no such call."""
        name, words = call.name, call.words
        if name in KINDS:
            ident = self.slots[KINDS[name]].next()
            if ident is not None:
                sysctl(f"{FILES[KINDS[name]]}_next_id", ident)
        elif name in ("semop", "semtimedop"):
            *words, operations = words
            left = [self.began + self.times[deadline(self.clock, it)] - time.monotonic() for it in words[1:]]
            words = [words[0], *(max(0, int(it * 1000)) for it in left), len(operations), *sum(operations, [])]
        elif name == "setcreds" and words[2].count(",") > 31:
            return "error 22 EINVAL"
        elif name == "setcreds":
            words = [*words[:2], ",".join(str(number(it)) for it in words[2].split(",")) if words[2] not in "=-" else words[2]]
        elif name == "getall":
            words = [words[0], *self.status("s", words[0])[:1]]
        elif name == "setall":
            return self.setall(client, *words)
        elif name == "shmat":
            words = [*words, *self.status("m", words[0])[:1]]
        elif name == "set":
            if len(words) == 6 and words[0] != "q":
                return "error 22 EINVAL"
            words = words if len(words) == 6 else [*words, *(self.status("q", words[1])[2:3] if words[0] == "q" else [])]
        elif name in ("name", "assume"):
            raise Stuck(f"the kernel has no {name}")
        return [name, *words]

    def setall(self, client, ident, values):
        """SETALL takes no count from its caller. Where it is wrong, the right is asked by an operation that always stops."""
        status = self.status("s", ident)
        if not status or int(status[0]) == len(values):
            return ["setall", ident, len(values), *(it if 0 <= it <= 65535 else 65535 for it in values)]
        client.ask("semop", ident, 1, 0, -32768, 0o4000)
        client.waits()
        return "error 13 EACCES" if client.answer()[1] == "13" else "error 22 EINVAL"

    def settled(self, caller):
        """What the calls that waited were answered, when all that still wait sleep."""
        rows, seen, began = [], None, time.monotonic()
        while True:
            for client in [it for it in self.clients.values() if it.call and it.has_ended]:
                rows.append(f"{client.name} error 3 ESRCH")
                client.call = None
            waiting = [it for it in self.clients.values() if it.call]
            for client in [it for it in waiting if it.has_answered(0)]:
                rows.append(f"{client.name} {self.row(client.call, client.answer())}")
                client.call = None
            now = [it.asleep() for it in waiting]
            if not waiting or now == seen and None not in now:
                return rows
            seen = now
            if time.monotonic() - began > LONGEST:
                raise Stuck(f"the calls that wait don't come to rest after {caller.name}'s")

    def row(self, call, answer):
        """An answer as a row has it."""
        result, error, *words = answer
        name = call.name
        if int(result) < 0:
            return f"error {error} {ERRORS.get(int(error), '?')}"
        if name in KINDS:
            self.slots[KINDS[name]].made(int(result))
            return f"id {result}"
        if name == "msgrcv":
            return f"message {words[0]} {words[1]}"
        if name in ("getval", "getncnt", "getzcnt"):
            return f"value {result}"
        if name == "getpid":
            return f"value {self.client_of(result)}"
        if name == "getall":
            return " ".join(["values", *words])
        if name == "shmat":
            return f"attached {result}"
        if name == "shmread":
            return f"bytes {words[0]}"
        return self.status_row(call.words[0], words) if name == "stat" else self.list_row(call.words[0], words) if name == "list" else "ok"

    def client_of(self, process):
        return self.numbers.get(int(process), 0)

    def status_row(self, kind, words):
        key, uid, gid, cuid, cgid, mode, *rest = words
        perm = f"key 0x{int(key):08x} uid {uid} gid {gid} cuid {cuid} cgid {cgid} mode {int(mode, 8):04o}"
        client = self.client_of
        if kind == "q":
            return f"queue {perm} cbytes {rest[0]} qnum {rest[1]} qbytes {rest[2]} lspid {client(rest[3])} lrpid {client(rest[4])} times"
        if kind == "s":
            return f"set {perm} nsems {rest[0]} times"
        return f"segment {perm} size {rest[0]} nattch {rest[1]} cpid {client(rest[2])} lpid {client(rest[3])} times"

    def list_row(self, kind, words):
        rows = sorted((it.split(":") for it in words), key=lambda it: int(it[1]) % 32768)
        shown = [f"  {kind} 0x{int(it[0]):08x} {it[1]} {it[2]} {int(it[3], 8):04o} {' '.join(it[4:])}" for it in rows]
        return "\n".join([f"list {len(rows)}", *shown])

    def end(self):
        for client in [*self.clients.values(), *self.former, self.root]:
            client.end()
        self.folder.cleanup()


def signalled(client, request, threads):
    """The row of a signal to threads of a process. A client that kills itself tells no answer."""
    if not threads:
        return "error 3 ESRCH"
    client.ask(request, threads[0].ids[0], *(it.ids[1] for it in threads))
    answer = ["0"] if request == "kill" and client in threads else client.answer()
    return "ok" if answer[0] == "0" else f"error {answer[1]} {ERRORS[int(answer[1])]}"


PROCESS_CALLS = {it.__name__: it for it in (Kernel.begin, Kernel.fork, Kernel.clone, Kernel.exec, Kernel.exit, Kernel.kill, Kernel.interrupt)}


def deadline(now, timeout):
    return min(now + timeout, 2**64 - 1)


class Script:
    """The good lines of a script: its limits, its clients, and its calls, each with the second of the clock and the client."""

    def __init__(self, text, bad):
        self.limits, self.clients, self.calls, now, clock = dict(LIMITS), {}, [], 0, 0
        for at, line in enumerate(text.split(b"\n"), 1):
            words = line.decode("ascii", "replace").split()
            if at in bad or not words or words[0][0] == "#":
                continue
            if words[0] == "clock":
                now = number(words[1])
            elif words[0] == "limit":
                names = SLOTS.values() if words[1] == "slots" else words[1:2]
                self.limits.update(dict.fromkeys(names, number(words[2])))
            elif words[0] == "client":
                self.clients[words[1]] = number(words[2]), number(words[3]), dict(it.split("=", 1) for it in words[4:])
            else:
                clock = max(clock, now)
                self.calls += [(clock, words[0], it) for it in calls_of(line, words)]

    def moments(self):
        """The seconds of the clock that are told apart where there are deadlines: those of calls, and the deadlines."""
        ends = {deadline(now, it.words[1]) for now, _, it in self.calls if it.name == "semtimedop"}
        return ends | {now for now, _, _ in self.calls} if ends else set()


def rows_on_kernel(program, text, bad, step=STEPS[0]):
    """The kernel's rows of a script without its bad lines, and the numbers of the clients' processes at each place."""
    script, rows = Script(text, bad), []
    if not script.calls:
        return rows, {}
    kernel = Kernel(program, script.limits, script.clients, script.moments(), step)
    try:
        for now, client, call in script.calls:
            kernel.set_clock(now)
            rows += kernel.make(client, call)
    finally:
        kernel.end()
    return rows, kernel.threads_at


def comparable(output):
    """Rows of ipcsh without names of rules, times, bad lines, and the order in which one event ended calls; and the bad lines' numbers."""
    rows, bad = [], set()
    for line in output.decode("ascii", "replace").splitlines():
        found = re.match(r"line (\d+):", line)
        if found:
            bad.add(int(found[1]))
        elif line.startswith("  "):
            rows[-1] += "\n" + line
        else:
            line = re.sub(r" (error \d+ E\w+) .*", r" \1", line)
            line = re.sub(r"(?: [socrad]time \d+)+$", " times", line)
            rows.append(re.sub(r"^(\d+)\.[1-9]\d* ", r"\1.+ ", line))
    return sorted(rows, key=placed), bad


def placed(row):
    """Rows in the order of places; those of one event with its own first."""
    place, _, rest = row.partition(".")
    return int(place), rest[0] == "+", rest


def without_last(rows, threads_at):
    """The rows, where of processes whose calls one event ended the lowest stands for who sent or received last: it may be any of them."""
    lowest, ended, shown = {}, {}, []
    for row in sorted(rows, key=placed):
        place, name = row.split(" ", 2)[:2]
        pid = threads_at.get(int(place.partition(".")[0]), {}).get(name, 0)
        if place.endswith("+"):
            ended.setdefault(place, []).append(pid)
            lowest.update(dict.fromkeys(ended[place], min(ended[place])))
        else:
            lowest.pop(pid, None)
        shown.append(re.sub(r"( l[sr]pid )(\d+)", lambda it: it[1] + str(lowest.get(int(it[2]), it[2])), row))
    return shown


class Difference:
    """How a script's rows differ on the kernel: those of ipcsh and those of the kernel; or why they can't be compared."""

    def __init__(self, own, kernels, why=None):
        self.own = [it for it in own if it not in kernels]
        self.kernels = [it for it in kernels if it not in own]
        self.why = why

    def is_one(self):
        return bool(self.own or self.kernels or self.why)

    def places(self):
        """The places of the events whose rows differ; - where the script has none on the kernel."""
        found = {int(it.partition(".")[0]) for it in self.own + self.kernels}
        return [str(it) for it in sorted(found)] if not self.why else ["-"]

    def __str__(self):
        return "".join(f"    - {it}\n" for it in self.own[:5]) + "".join(f"    + {it}\n" for it in self.kernels[:5]) + (f"    {self.why}\n" if self.why else "")


def difference(task):
    """How a script differs: the text, and what ipcsh prints for it."""
    program, text, output = task
    own, bad = comparable(output)
    for step in STEPS:
        try:
            rows, threads_at = rows_on_kernel(program, text, bad, step)
            found = Difference(without_last(own, threads_at), without_last(rows, threads_at))
        except (Stuck, OSError) as why:
            found = Difference([], [], str(why))
        if not found.is_one() or b" semtimedop " not in text:
            break
    return found


def differences_of(tasks):
    """The differences of scripts, each found in a process of its own, which goes with its IPC namespace."""
    with multiprocessing.Pool(len(os.sched_getaffinity(0)), maxtasksperchild=1) as pool:
        yield from pool.imap(difference, tasks, 1)


def lacking(text):
    """The capabilities that a script's clients have, and this machine hasn't to give."""
    named = {name for words in re.findall(rb"^client .*\bcaps=(\S*)", text, re.M) for name in words.decode().split(",")}
    return sorted(it for it in named if CAPABILITIES.get(it, 0) & ~HAVE)


def declared(path):
    """The differences that a file declares, by script: the places of events, and the rule behind them."""
    found = {}
    for line in pathlib.Path(path).read_text(encoding="utf-8").splitlines():
        words, _, rule = line.partition(": ")
        if words and words[0] != "#":
            name, *places = words.split()
            found.setdefault(name, []).extend((it, rule) for it in places)
    return found


def judged(name, text, found, wanted):
    """What is wrong with a script's difference: lines for what isn't declared, and for what is declared and not seen."""
    seen = found.places() if found.is_one() else []
    undeclared = [it for it in seen if it not in [place for place, _ in wanted]]
    unseen = [f"{it} ({rule})" for it, rule in wanted if it not in seen]
    if lacking(text):
        return []
    shown = [f"{name}: differs at {' '.join(undeclared)}, which is not declared\n{found}"] if undeclared else []
    return shown + ([f"{name}: declared, and not seen: {', '.join(unseen)}"] if unseen else [])


def compare(client, differences, *scripts):
    wanted, texts = declared(differences), [pathlib.Path(it).read_bytes() for it in scripts]
    outputs = [pathlib.Path(it).with_suffix(".out").read_bytes() for it in scripts]
    found = list(differences_of([(client, *it) for it in zip(texts, outputs)]))
    failed, alike, apart_from, unjudged = [], 0, 0, 0
    for path, text, it in zip(scripts, texts, found):
        name = pathlib.Path(path).stem
        wrong = judged(name, text, it, wanted.pop(name, []))
        unjudged += bool(lacking(text) and it.is_one())
        alike += not it.is_one()
        apart_from += it.is_one() and not lacking(text)
        failed += wrong
    failed += [f"{name}: there is no such script" for name in wanted]
    print("".join(f"FAILED {it}\n" for it in failed), end="")
    print(f"{alike} scripts are answered alike, {apart_from} but for what is declared, {unjudged} are not judged: this machine lacks a capability")
    print(f"{len(scripts) - unjudged - len(failed)} passed, {len(failed)} failed")
    return 1 if failed else 0


# Random scripts

HEAD = """client alice 100 10
client bob 200 20 groups=10
client carol 300 30
client adam 400 40 caps=IPC_OWNER,SYS_ADMIN,SETUID,SETGID
client eve 100 30 saved=100:20
"""
NAMES = "alice bob carol adam eve".split()
MODES = "0600 0640 0660 0666 0644 0604 0066 0400 0200 0000".split()


def any_get(dice):
    kind, key = dice.choice("qsm"), dice.choice("0556")
    flags = f"0{dice.choice(['1', '1', '3', '0'])}{dice.choice(MODES)[1:]}"
    return {"q": f"msgget {key} {flags}", "s": f"semget {key} 3 {flags}", "m": f"shmget {key} 16 {flags}"}[kind]


def any_queue_call(dice, ident):
    if dice.random() < 0.5:
        return f"msgsnd {ident} {dice.choice('1123')} t:{'x' * dice.choice([0, 1, 5, 30])} {dice.choice(['0', '04000'])}"
    return f"msgrcv {ident} {dice.choice(['0', '4', '40'])} {dice.choice(['0', '0', '1', '2', '-2'])} {dice.choice(['0', '04000', '010000', '020000', '014000'])}"


def any_set_call(dice, ident):
    amounts = dice.choice([["1", "2", "-1", "-1", "-2"]] * 3 + [["0"]])
    flags = ["", "", ":04000", ":010000", ":014000"]
    operations = " ".join(f"{dice.choice('012')}:{dice.choice(amounts)}{dice.choice(flags)}" for _ in range(dice.choice([1, 1, 2, 3])))
    values = " ".join(dice.choice("0123") for _ in range(3))
    one = f"{dice.choice(['getval', 'getpid', 'getncnt', 'getzcnt'])} {ident} {dice.choice('012')}"
    return dice.choice([f"semop {ident} {operations}"] * 4 + [one, f"getall {ident}", f"setval {ident} {dice.choice('012')} {dice.choice('0125')}", f"setall {ident} {values}"])


def any_segment_call(dice, ident):
    number, offset = dice.choice("0012"), dice.choice("0048")
    return dice.choice([f"shmat {ident} {dice.choice(['0', '0', '010000'])}"] * 2 + [f"shmdt {number}", f"shmread {number} {offset} 4", f"shmwrite {number} {offset} t:abcd"])


def any_control(dice, ident):
    kind = dice.choice("qsm")
    owner = f"{dice.choice(['100', '200', '300'])} {dice.choice(['10', '20', '30'])} {dice.choice(MODES)}"
    return dice.choice([f"stat {kind} {ident}"] * 3 + [f"set {dice.choice('qm')} {ident} {owner}", f"rmid {kind} {ident}"])


def any_interrupt(dice, _):
    return f"interrupt {dice.choice('12345')}"


def any_process_call(dice, _):
    """Calls on processes and threads. A client that has ended comes again by each of three."""
    child, number = dice.choice(NAMES), dice.choice("12345678")
    begins = [f"fork {child} {number}", f"clone {child}", f"begin {number} 200 20 groups=10", f"begin {number} 100 10"]
    return dice.choice([*begins, "exit", "exec", "exec", f"kill {number}", f"kill {number}", f"interrupt {child}"])


def any_life(dice):
    """A client ends, and comes again as a process or a thread of another, which may end it while it waits."""
    name, child = dice.sample(NAMES, 2)
    begins = dice.choice([f"clone {child}", f"fork {child} {dice.choice('6789')}"])
    waits = dice.choice(["semop 0 0:-3", "semop 0 1:-1", "msgrcv 0 40 3 0"])
    ends = dice.choice(["exec", f"kill {dice.choice('12345')}"])
    return [f"{child} exit", f"{name} {begins}"] + dice.choice([[], [f"{child} {waits}", f"{name} {ends}"]])


def any_setcreds(dice, _):
    return f"setcreds {dice.choice(['100', '200', '300'])} {dice.choice(['10', '20', '30'])}"


def any_command(dice, _):
    return dice.choice(["exit", "ipcs -qms", "ipcrm -Q 5", "ipcrm -S 5", "ipcmk -Q"])


def any_script(dice):
    """A script of five clients, whose calls meet at few objects. It has none of what PROFILE says that Linux does otherwise, so no
    interrupts and kills beside changed users."""
    ways = [any_queue_call] * 4 + [any_set_call] * 5 + [any_segment_call] * 3 + [any_control] * 3
    ways += [any_command, *dice.choice([[any_interrupt], [any_setcreds], [any_interrupt] + [any_process_call] * 5])]
    lines = [HEAD.rstrip()] + [f"{dice.choice(NAMES)} {any_get(dice)}" for _ in range(4)]
    for _ in range(40):
        if any_process_call in ways and dice.random() < 0.2:
            lines += any_life(dice)
        call = any_get(dice) if dice.random() < 0.12 else dice.choice(ways)(dice, dice.choice("0001"))
        lines.append(f"{dice.choice(NAMES)} {call}")
    return "".join(f"{it}\n" for it in lines).encode()


def printed(program, text):
    return hostile.run(program, text).output


def shortened(client, program, text, found):
    """The script without each line that it also differs without, and how it differs then."""
    lines = text.splitlines(keepends=True)
    for at in reversed(range(len(lines))):
        shorter = b"".join(lines[:at] + lines[at + 1 :])
        [it] = differences_of([(client, shorter, printed(program, shorter))])
        if it.is_one():
            del lines[at]
            found = it
    return f"{b''.join(lines).decode()}{found}"


def kernel_random(client, program, seed, count):
    texts = [any_script(random.Random(f"{seed}.{at}")) for at in range(int(count))]
    tasks, failed = [(client, it, printed(program, it)) for it in texts], 0
    for text, found in zip(texts, differences_of(tasks)):
        if found.is_one():
            failed += 1
            if failed == 1:
                print(f"FAILED seed {seed}: this script differs\n{shortened(client, program, text, found)}", end="")
    print(f"{len(texts) - failed} passed, {failed} failed")
    return 1 if failed else 0


def run(client, script, output):
    _, bad = comparable(pathlib.Path(output).read_bytes())
    rows, _ = rows_on_kernel(client, pathlib.Path(script).read_bytes(), bad)
    print("\n".join(rows))
    return 0


def main(part, *words):
    return {"run": run, "compare": compare, "random": kernel_random}[part](*words)


if __name__ == "__main__":
    sys.exit(main(*sys.argv[1:]))
