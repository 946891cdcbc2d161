"""A call of a trace as a line of the script, and what the program answers beside what the kernel answered."""

import re
from copy import copy

import kernel
from plan import has_timeout, was_interrupted
from values import DAMAGED, NotTaken, Text, flags32, int32, int64, is_address, number, number32, value

MSGMAX = 8192
SEMOPM = 500
LONGEST = 65000
NOWHERE = 2**32 - 1
# What shmget of the language takes at most.
SHMMAX = 2**30
KIND_OF = {"msg": "q", "sem": "s", "shm": "m"}
# Commands that the language lacks, and which change nothing that is compared.
ABSENT = re.compile(r"(IPC|MSG|SEM|SHM)_(INFO|STAT|STAT_ANY)$|SHM_(UN)?LOCK$")
OF_CONTENTS = {"semop", "semtimedop", "GETVAL", "GETNCNT", "GETZCNT", "msgsnd", "msgrcv"}
FIELDS = {"q": ("qnum", "qbytes"), "s": ("nsems",), "m": ("segsz", "nattch")}
# The process numbers of a structure.
NUMBERS = {"q": ("lspid", "lrpid"), "s": (), "m": ("cpid", "lpid")}
POINTERS = {"EFAULT": "a bad pointer; the definitions have none", "ENOSYS": "the kernel lacks the call", "ENOMEM": "an allocation failed"}


def kind_of(record):
    return KIND_OF[record.name[:3]]


def command_of(record):
    """What of msgctl, semctl or shmctl is asked; else the call's name. It is empty where the line lacks it."""
    if not record.name.endswith("ctl"):
        return record.name
    at = 2 if record.name == "semctl" else 1
    return "".join(record.words[at : at + 1]).replace("IPC_64|", "").strip()


def ident_of(record):
    """The kernel's identifier of the object that a call names; None where it can't be read."""
    try:
        return int32(number32(record.words[0]))
    except DAMAGED:
        return None


def key_of(record):
    return number32(record.words[0]) % 2**32


class Objects:
    """The objects of a run: the script's identifier for each of the kernel's, and what of them isn't known."""

    def __init__(self):
        self.own, self.kernels, self.removed, self.untaken = {}, {}, set(), {}
        self.keys, self.sizes, self.unsure = {}, {}, {}

    def copy(self):
        """The same, to be changed apart."""
        found = copy(self)
        for name, it in vars(self).items():
            setattr(found, name, copy(it))
        return found

    def ident(self, record):
        """The script's identifier of the object that a call names."""
        kind, ident = kind_of(record), int32(number32(record.words[0]))
        if ident < 0:
            return NOWHERE
        if (kind, ident) in self.own:
            self.ask_sure(record, kind, ident)
            return self.own[kind, ident]
        if (kind, ident) in self.untaken:
            raise NotTaken(f"object made by a call that isn't taken, {self.untaken[kind, ident]}")
        raise NotTaken("object made before the trace")

    def ask_sure(self, record, kind, ident):
        """A call on what isn't known can't be judged."""
        what, place = self.unsure.get((kind, ident), (None, None))
        if what == "contents" and command_of(record) in OF_CONTENTS or what == "contents" and kind == "q" and command_of(record) == "IPC_STAT":
            raise NotTaken(f"what the object holds isn't known since {place}")
        if what == "all":
            raise NotTaken(f"the object isn't known since {place}, which isn't taken")

    def made(self, record, kind, own):
        """An identifier that the kernel and the program both answered: None where they name one object, else how they differ."""
        ident = record.answer
        if (kind, ident) in self.own and (kind, ident) not in self.removed:
            return None if self.own[kind, ident] == own else f"the definitions answer another object, id {own}"
        if (kind, own) in self.kernels:
            return f"the definitions answer the object of {self.kernels[kind, own]}"
        self.own[kind, ident], self.kernels[kind, own] = own, ident
        self.removed.discard((kind, ident))
        if key_of(record):
            self.keys[kind, key_of(record)] = ident
        return None

    def not_taken(self, record):
        """What a call that isn't taken leaves unknown."""
        kind = kind_of(record)
        if record.name in kernel.KINDS:
            if record.answer is not None and (kind, record.answer) not in self.own:
                self.untaken[kind, record.answer] = str(record.place)
        elif record.may_be_done and record.name != "shmdt" and not ABSENT.match(command_of(record)) and not command_of(record).startswith("GET"):
            ident = ident_of(record)
            hidden = command_of(record) in ("SETALL", "semop", "semtimedop", "msgsnd", "msgrcv")
            self.lose(kind, ident, record, "contents" if hidden else "all")

    def lose(self, kind, ident, record, what="all"):
        """What an object holds, or all of it, isn't known from a record on."""
        if (kind, ident) in self.own:
            self.unsure.setdefault((kind, ident), (what, str(record.place)))


def octal(found):
    return f"0{found:o}" if found else "0"


def get(record, objects):
    """msgget, semget or shmget."""
    kind, key, flags = kind_of(record), key_of(record), flags32(record.words[-1])
    ident, size = record.answer, size_of(record, kind)
    if key and (kind, key) not in objects.keys:
        if record.error in ("EEXIST", "EACCES") or ident is not None and not flags & 0o1000:
            raise NotTaken("object made before the trace")
    if ident is not None and (kind, ident) in objects.untaken:
        raise NotTaken(f"object made by a call that isn't taken, {objects.untaken[kind, ident]}")
    if kind == "m" and size > SHMMAX and not record.error:
        raise NotTaken(f"a segment of more than {SHMMAX} bytes")
    return [record.name, f"0x{key:x}" if key else "0", *([] if kind == "q" else [str(size)]), octal(flags)]


def size_of(record, kind):
    """What semget or shmget asks for: semaphores or bytes; 0 for msgget."""
    return 0 if kind == "q" else number32(record.words[1]) % 2**32 if kind == "s" else number(record.words[1]) % 2**64


def message_of(word):
    """Type and Text of a message."""
    if is_address(word):
        raise NotTaken("strace didn't write the message")
    found = value(word)
    mtype, text = (number(found["mtype"]), value(found["mtext"])) if isinstance(found, dict) else found
    return int64(mtype), text if isinstance(text, Text) else None


def shown(content):
    """A text of the language."""
    is_plain = all(33 <= it <= 126 for it in content)
    return "t:" + content.decode() if is_plain else "x:" + content.hex()


def msgsnd(record, objects):
    ident, size, flags = objects.ident(record), number(record.words[2]) % 2**64, flags32(record.words[3])
    mtype, text = message_of(record.words[1])
    known = text.bytes if text else b""
    content = (known + b"." * (min(size, objects.msgmax + 1) - len(known)))[: min(size, objects.msgmax + 1)]
    words = ["msgsnd", str(ident), str(mtype), shown(content), octal(flags)]
    if len(words[3]) > LONGEST:
        raise NotTaken("the text is too long for a line of a script")
    return words


def msgrcv(record, objects):
    ident = objects.ident(record)
    if len(record.words) < 5:
        raise NotTaken("it has no end, so strace didn't write what it asks for")
    size, mtype, flags = number(record.words[2]) % 2**64, int64(number(record.words[3])), flags32(record.words[4])
    if flags & 0o40000:
        raise NotTaken("MSG_COPY isn't there (docs/PROFILE.md, Not there)")
    return ["msgrcv", str(ident), str(size), str(mtype), octal(flags)]


def operation(it):
    """An operation of semop in the language."""
    num, amount, flags = (number(it["sem_num"]), number(it["sem_op"]), number(it["sem_flg"])) if isinstance(it, dict) else it
    if not (0 <= num < 2**16 and -(2**15) <= amount < 2**15 and 0 <= flags < 2**16):
        raise NotTaken("a number of an operation is wider than 16 bits")
    return f"{num}:{amount:+d}" + (f":{octal(flags)}" if flags else "") if amount else f"{num}:0" + (f":{octal(flags)}" if flags else "")


def semop(record, objects):
    ident, count = objects.ident(record), number(record.words[2])
    timeout = timeout_of(record) if has_timeout(record) else None
    if count > objects.semopm:
        operations = ["0:0"] * (objects.semopm + 1)
    elif count == 0:
        operations = []
    else:
        found = value(record.words[1]) if not is_address(record.words[1]) else None
        if not isinstance(found, list) or ... in found or len(found) != count:
            raise NotTaken("strace cut the operations: record with -v")
        operations = [operation(it) for it in found]
    return ["semop" if timeout is None else "semtimedop", str(ident), *([] if timeout is None else [str(timeout)]), *operations]


def timeout_of(record):
    """The timeout of a semtimedop in nanoseconds."""
    found = value(record.words[3])
    if not isinstance(found, dict):
        raise NotTaken("strace didn't write the timeout")
    seconds, rest = number(found["tv_sec"]), number(found["tv_nsec"])
    if seconds < 0 or not 0 <= rest < 10**9:
        raise NotTaken("a timeout that isn't one: the language has none (rule 71)")
    return min(seconds * 10**9 + rest, 2**64 - 1)


def owner(word, prefix):
    """User, group and mode of a structure of IPC_SET."""
    if is_address(word):
        raise NotTaken("strace didn't write the structure")
    fields = value(word)
    perm = value(fields[f"{prefix}_perm"])
    words = [str(number32(perm[it]) % 2**32) for it in ("uid", "gid")] + [octal(flags32(perm["mode"]))]
    return words + ([str(number(fields["msg_qbytes"]) % 2**64)] if prefix == "msg" and "msg_qbytes" in fields else [])


def semctl(record, objects, command, ident):
    num = str(number32(record.words[1]) % 2**32)
    if command in ("GETVAL", "GETPID", "GETNCNT", "GETZCNT"):
        return [command.lower(), ident, num]
    if command == "SETVAL":
        return ["setval", ident, num, str(int32(number32(record.words[3])))]
    if command == "GETALL":
        return ["getall", ident]
    if record.error is None or record.error == "ERANGE":
        raise NotTaken("strace doesn't write the values of SETALL")
    return ["setall", ident, *["0"] * objects.sizes.get(ident_of(record), 1)]


def control(record, objects):
    """msgctl, semctl or shmctl."""
    command, kind = command_of(record), kind_of(record)
    if ABSENT.match(command) and command != "IPC_STAT":
        raise NotTaken(f"{command} isn't there (docs/PROFILE.md, Not there)")
    ident = str(objects.ident(record))
    if command == "IPC_RMID":
        return ["rmid", kind, ident]
    if command == "IPC_STAT":
        return ["stat", kind, ident]
    if command == "IPC_SET":
        return ["set", kind, ident, *owner(record.words[-1], record.name[:3])]
    if record.name == "semctl" and command in ("GETVAL", "GETPID", "GETNCNT", "GETZCNT", "SETVAL", "GETALL", "SETALL"):
        return semctl(record, objects, command, ident)
    raise NotTaken(f"{command} is no command that is known")


def shmat(record, objects):
    if record.words[1] != "NULL" and record.error:
        raise NotTaken("an address is asked for; the definitions have none (rule 61)")
    return ["shmat", str(objects.ident(record)), octal(flags32(record.words[2]))]


def words_of(step, objects, numbers):
    """The line of a call without its client. `numbers` are those of attachments."""
    record = step.record
    if record.error in POINTERS:
        raise NotTaken(f"{record.error}: {POINTERS[record.error]}")
    if record.name in kernel.KINDS:
        return get(record, objects)
    if record.name == "shmdt":
        if step.attachment is None and record.answer == 0:
            raise NotTaken("attached before the trace, or by a process whose fork isn't in it")
        if step.attachment not in numbers and record.answer == 0:
            raise NotTaken(f"attached by a call that isn't taken, {step.attachment.record.place}")
        return ["shmdt", str(numbers.get(step.attachment, NOWHERE))]
    makers = {"msgsnd": msgsnd, "msgrcv": msgrcv, "semop": semop, "semtimedop": semop, "shmat": shmat}
    return makers.get(record.name, control)(record, objects)


# What is answered


def received(record, row):
    """How a received message differs."""
    mtype, content = int(row[1]), bytes.fromhex(row[2][2:])
    if record.answer != len(content):
        return f"the definitions give {len(content)} bytes"
    kernels, text = message_of(record.words[1])
    if kernels != mtype:
        return f"the definitions give type {mtype}"
    seen = text.bytes[: record.answer] if text else b""
    return None if content[: len(seen)] == seen else f"the definitions give the text {shown(content)}"


def status(record, row):
    """How the structure of an IPC_STAT differs, in what is compared."""
    prefix, kind = record.name[:3], kind_of(record)
    if is_address(record.words[-1]):
        return None
    fields, given = value(record.words[-1]), dict(zip(row[1::2], row[2::2]))
    perm = value(fields.get(f"{prefix}_perm", "{}"))
    seen = {it: perm[it] for it in ("uid", "gid", "cuid", "cgid", "mode", "key") if it in perm}
    seen.update({it: fields[f"{prefix}_{it}"] for it in FIELDS[kind] if f"{prefix}_{it}" in fields})
    for name, word in seen.items():
        own = given.get("size" if name == "segsz" else name)
        wanted = int(own, 16 if name == "key" else 8 if name == "mode" else 10)
        found = number(word) % 2**32 & (0o1777 if name == "mode" else 2**32 - 1)
        if wanted != found:
            return f"the definitions give {name} {own}"
    return None


def other_numbers(record, row):
    """The process numbers that the kernel told otherwise: for each its name, that of the definitions and that of the kernel."""
    if command_of(record) == "GETPID":
        return [("pid", int(row[1]), record.answer)] if int(row[1]) != record.answer else []
    if command_of(record) != "IPC_STAT" or is_address(record.words[-1]):
        return []
    fields, given = value(record.words[-1]), dict(zip(row[1::2], row[2::2]))
    names = [(it, f"{record.name[:3]}_{it}") for it in NUMBERS[kind_of(record)]]
    found = [(it, int(given[it]), number(fields[name])) for it, name in names if name in fields]
    return [it for it in found if it[1] != it[2]]


def wrong_numbers(step, row, objects, plan):
    """Those of them that nothing else explains, as the definitions have them. A call that isn't taken may have left its number."""
    others = other_numbers(step.record, row)
    if not others or (kind_of(step.record), ident_of(step.record)) in objects.unsure:
        return []
    return [f"{name} {own}" for name, own, found in others if plan.tells_apart(step.thread, name, own, found)]


def difference(step, row, objects, plan):
    """How what the kernel answered differs from a granted call's row, None where it doesn't."""
    record = step.record
    if record.name in kernel.KINDS:
        return objects.made(record, kind_of(record), int(row[1]))
    if record.name == "msgrcv":
        return received(record, row)
    if command_of(record) in ("GETVAL", "GETNCNT", "GETZCNT") and int(row[1]) != record.answer:
        return f"the definitions give {row[1]}"
    told = status(record, row) if command_of(record) == "IPC_STAT" else None
    return told or next((f"the definitions give {it}" for it in wrong_numbers(step, row, objects, plan)), None)


def remark(record, row):
    """What of a granted call isn't compared, or was filled in."""
    other = [f"; {name} {found} isn't compared" for name, _, found in other_numbers(record, row.split())]
    if record.name in ("msgsnd", "msgrcv"):
        text, length = message_of(record.words[1])[1], record.answer if record.name == "msgrcv" else number(record.words[2])
        if text is None or length <= len(text.bytes):
            return ""
        return "; strace cut the text" + (", which is filled" if record.name == "msgsnd" else "")
    return "; strace doesn't write the values" if command_of(record) == "GETALL" else "".join(other)


def shortened(row):
    """A row's answer as the verdict tells it."""
    if row[0] == "message":
        return f"message {row[1]}, {len(row[2]) // 2 - 1} bytes"
    return row[0] if row[0] in ("queue", "set", "segment", "values") else " ".join(row)


def judged(step, row, objects, plan):
    """Whether the kernel answered what the definitions give, and the text that says so."""
    record, row = step.record, row.split()
    if row[0] == "error":
        wanted = "EINTR" if was_interrupted(record) else record.error
        return (True, row[3]) if wanted == row[2] else (False, f"the definitions give {row[2]} by rule {row[3]}")
    if record.answer is None:
        return False, f"the definitions answer {shortened(row)}"
    told = difference(step, row, objects, plan)
    if told:
        return False, told
    if command_of(record) == "IPC_RMID":
        objects.removed.add((kind_of(record), ident_of(record)))
    if record.name == "semget":
        objects.sizes.setdefault(record.answer, size_of(record, "s"))
    return True, f"({shortened(row)})"
