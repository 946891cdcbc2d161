"""Who may read, write, set and remove the objects of this machine: processes with the same credentials in one line, and a user as at login, who need have no
process. What each may do is answered by ./ipcwho, of copies of the files of /proc in a folder of their own."""

import contextlib
import grp
import os
import pathlib
import pwd
import re
import subprocess
import tempfile

from choosing import chosen
from programs import TOP, Fault, complain, ended, say
from streams import write_error
from style import STYLE
from words import Usage

FIELD = re.compile(rb"^(Name|Uid|Gid|Groups|CapEff):[ \t]*(.*)$", re.M)
ROW = re.compile(r"  pid ([0-9]+) \(.*\): (read .*)")
ANSWER = r"(no \(\w+, [a-z-]+\)|\w+)"
ANSWERS = re.compile(f"read {ANSWER}, write {ANSWER}, set and remove {ANSWER}")
RIGHTS = ("read", "write", "control")
OWNED = re.compile(r"\b(owner|creator) ([0-9]+):([0-9]+)")
ALL_CAPABILITIES = (1 << 41) - 1
# How many processes of one line are named.
MOST = 6


class Caller:
    """Processes with the same credentials, by number and name, or a user as at login, who has none. `status` stands for them."""

    def __init__(self, status, label=None):
        self.status, self.label, self.processes = status, label, []
        self.uid, self.gid, self.groups, _ = key_of(fields(status)) or (None, None, (), None)

    def shown(self, named):
        """Who that is."""
        if self.label:
            return self.label
        pids, names = zip(*self.processes)
        more = f" and {len(pids) - MOST} more" if len(pids) > MOST else ""
        word = "pids" if len(pids) > 1 else "pid"
        return f"{word} {' '.join(map(str, pids[:MOST]))}{more} ({', '.join(dict.fromkeys(names[:MOST]))}){self.credentials(named)}"

    def credentials(self, named):
        if self.uid is None:
            return ""
        others = [named.group(it) for it in sorted(self.groups, key=int) if it != self.gid]
        return f", user {named.user(self.uid)}, group {named.group(self.gid)}" + (f", groups {' '.join(others)}" if others else "")


class Names:
    """Names beside numbers, where the numbers are those of this machine."""

    def __init__(self, are_known):
        self.are_known = are_known

    def user(self, uid):
        return self.beside(uid, lambda: pwd.getpwuid(int(uid)).pw_name)

    def group(self, gid):
        return self.beside(gid, lambda: grp.getgrgid(int(gid)).gr_name)

    def beside(self, number, name_of):
        with contextlib.suppress(KeyError, OverflowError):
            return f"{number}({name_of()})" if self.are_known else f"{number}"
        return f"{number}"

    def owned(self, line):
        return OWNED.sub(lambda it: f"{it[1]} {self.user(it[2])}:{self.group(it[3])}", line)


def fields(status):
    return {it[1].decode(): it[2].decode("utf-8", "backslashreplace").strip() for it in FIELD.finditer(status)}


def key_of(found):
    """What counts of credentials: the effective user, the group of the file system, the other groups and the capabilities; None where it isn't all there."""
    try:
        return found["Uid"].split()[1], found["Gid"].split()[3], frozenset(found["Groups"].split()), found["CapEff"]
    except (KeyError, IndexError):
        return None


def namespace(proc, pid):
    """The IPC namespace of a process; None where that can't be read."""
    with contextlib.suppress(OSError):
        return os.readlink(f"{proc}/{pid}/ns/ipc")
    return None


class Machine:
    """The processes of this machine by their credentials. Of one that has ended meanwhile nothing is said; one of another IPC namespace is counted."""

    def __init__(self, proc):
        self.proc, self.callers, self.left_out, self.is_whole = proc, {}, 0, True
        own = namespace(proc, "self")
        try:
            pids = sorted(int(it) for it in os.listdir(proc) if it.isascii() and it.isdigit())
        except OSError as why:
            raise Fault(f"{proc}: {why.strerror}", 1) from why
        for pid in pids:
            self.add(pid, own)

    def add(self, pid, own):
        theirs = namespace(self.proc, pid)
        if own and theirs and own != theirs:
            self.left_out += 1
            return
        try:
            status = pathlib.Path(self.proc, str(pid), "status").read_bytes()
        except (FileNotFoundError, ProcessLookupError):
            return
        except OSError as why:
            self.is_whole = False
            complain("who", f"{self.proc}/{pid}/status: {why.strerror}")
            return
        found = fields(status)
        caller = self.callers.setdefault(key_of(found) or pid, Caller(status))
        caller.processes.append((pid, found.get("Name", "")))


def at_login(word, named):
    """The user of this name, or of these numbers, UID or UID:GID, as at login."""
    numbers = re.fullmatch("([0-9]{1,10})(?::([0-9]{1,10}))?", word)
    try:
        known = pwd.getpwuid(int(numbers[1])) if numbers else pwd.getpwnam(word)
    except (KeyError, OverflowError):
        known = None
    if not known and not (numbers and numbers[2]):
        raise Usage(f"this machine has no user '{word}'" + ("; UID:GID stands for one" if numbers else ""))
    uid = int(numbers[1]) if numbers else known.pw_uid
    gid = int(numbers[2]) if numbers and numbers[2] else known.pw_gid
    groups = os.getgrouplist(known.pw_name, gid) if known else [gid]
    caps = ALL_CAPABILITIES if uid == 0 else 0
    rows = {"Name": "login", "Uid": "\t".join([str(uid)] * 4), "Gid": "\t".join([str(gid)] * 4), "Groups": " ".join(map(str, groups)), "CapEff": f"{caps:016x}"}
    status = "".join(f"{name}:\t{value}\n" for name, value in rows.items())
    return Caller(status.encode(), f"user {named.user(uid)} at login")


def asked(proc, callers):
    """What ./ipcwho prints of the objects and these callers, who go by their numbers from 1, and its status."""
    chosen("ipcwho")
    with tempfile.TemporaryDirectory() as folder:
        copied = pathlib.Path(folder)
        (copied / "sysvipc").mkdir()
        for kind in ("msg", "sem", "shm"):
            # What can't be read isn't there, and is told so.
            with contextlib.suppress(OSError):
                (copied / "sysvipc" / kind).write_bytes(pathlib.Path(proc, "sysvipc", kind).read_bytes())
        for number, caller in enumerate(callers, 1):
            (copied / str(number)).mkdir()
            (copied / str(number) / "status").write_bytes(caller.status)
        it = subprocess.run([TOP / "ipcwho", f"--proc={folder}"], stdout=subprocess.PIPE, stderr=subprocess.PIPE, check=False)
        told = re.sub(rf"{re.escape(folder)}/([0-9]+)/", lambda it: f"{proc}/{callers[int(it[1]) - 1].processes[0][0]}/", it.stderr.decode("utf-8", "replace"))
        write_error(told.replace(folder, proc))
    return it.stdout.decode("utf-8", "backslashreplace").splitlines(), ended(it.returncode)


def may(answers, right):
    found = ANSWERS.fullmatch(answers)
    return right is None or found and not found[RIGHTS.index(right) + 1].startswith("no ")


def told(lines, callers, named, right):
    """The objects, each with a line for each caller that has the right, where one is asked for."""
    for line in lines:
        row = ROW.fullmatch(line)
        if not row:
            yield named.owned(line), None
        elif may(row[2], right):
            yield None, f"  {callers[int(row[1]) - 1].shown(named)}: {row[2]}"


def who(options, name, number):
    """Prints who may do what to all objects, to those of a kind, or to one."""
    proc, right, user = (options.get(it) for it in ("--proc", "--can", "--user"))
    if right not in (None, *RIGHTS):
        raise Usage(f"'{right}' is no right; there are {', '.join(RIGHTS)}")
    named = Names(proc is None and STYLE.objects is None)
    login = user and at_login(user, named)
    machine = Machine(proc or "/proc")
    callers = [it for it in machine.callers.values() if not login or it.uid == login.uid]
    callers = [login, *callers] if login else callers
    lines, status = asked(machine.proc, callers)
    shown = chosen_objects(list(told(lines, callers, named, right)), f"{name} {number} " if number else f"{name} " if name else "", right)
    if number and not any(it.startswith(f"{name} {number} ") for it in lines):
        raise Fault(f"there is no {name} {number}", 1)
    say("".join(f"{it}\n" for it in shown or [none_of(name, right)]).encode())
    if machine.left_out:
        complain("who", f"processes of other IPC namespaces, which have objects of their own, are left out: {machine.left_out}")
    return status if machine.is_whole else max(status, 1)


def chosen_objects(found, head, right):
    """The lines of the objects that begin so, of which those without a caller are left out where a right is asked for."""
    blocks = []
    for line, below in found:
        if line is not None:
            blocks.append([line])
        else:
            blocks[-1].append(below)
    return [line for it in blocks if it[0].startswith(head) and (right is None or len(it) > 1) for line in it]


def none_of(name, right):
    """What is said where no object is shown."""
    return f"no {name or 'object'}s" + (f" that one of these may {right}" if right else "")
