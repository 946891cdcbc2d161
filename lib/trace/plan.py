"""The steps of a script, one for each call of a trace, each birth and end of a thread, each execve, and each time that other credentials are told."""

import re

import creds
from processes import Clients, Process, Thread, identity
from values import DAMAGED, NotTaken, is_address, reason

# How many arguments each call has; strace writes the fourth of semctl where the command takes one, or always.
CALLS = {"msgget": 2, "semget": 3, "shmget": 3, "msgsnd": 4, "msgrcv": 5, "msgctl": 3, "semop": 3, "semtimedop": 4, "semctl": 4}
CALLS.update({"shmat": 3, "shmdt": 1, "shmctl": 3})
ARGUMENTS = {**CALLS, **creds.READERS, **creds.SETTERS}
WAITING = {"msgsnd", "msgrcv", "semop", "semtimedop"}
FORKS = {"fork", "vfork", "clone", "clone3"}
NOT_IN_THE_END = re.compile(r"ERESTART\w*$|EINTR$")
TRANSLATED = re.compile(r"/\* ([0-9]{1,9}) in strace's PID NS \*/")
# No process of Linux has a greater number.
LAST_PID = 2**30
ALL_TAKEN = "a script has at most 64 clients, and all are taken"


class Attachment:
    """What a process has attached, by the shmat of a record. It is one for it and for those that it forks, as its number in the script is."""

    def __init__(self, record):
        self.record = record


class Step:
    """A line of the script, or several: what it does, the record that it is of, and the thread that does it. `position` is where among the lines
    of the trace it is done, which is between `since` and `until`. `attachments` are those that a fork copies, or an execve ends."""

    def __init__(self, kind, record, thread, since=None):
        self.kind, self.record, self.thread = kind, record, thread
        self.since = record.at if since is None else since
        self.until = record.until
        self.position = max(record.at, self.since)
        self.attachment, self.attachments, self.child, self.words, self.why, self.is_last = None, [], None, [], "", False

    @property
    def client(self):
        return self.thread.client

    @property
    def floats(self):
        return self.until > self.since and (self.kind in ("call", "exit") or bool(self.attachments))

    @property
    def is_seen(self):
        """Whether calls of others may tell when it was done."""
        return self.kind in ("call", "cut", "untaken", "exit") or bool(self.attachments)

    @property
    def is_needed(self):
        """Whether the script has it: what is of no thread, or of one that a call needs."""
        return self.thread is None or (self.child or self.thread).is_needed


def was_interrupted(record):
    return record.error is not None and NOT_IN_THE_END.match(record.error) is not None


def has_timeout(record):
    return record.name == "semtimedop" and len(record.words) > 3 and record.words[3] != "NULL"


def ask_form(record):
    """A call whose answer or whose arguments can't be those of the call isn't taken. Of one without an end arguments may be missing."""
    if not record.is_readable:
        raise NotTaken("its answer is none that strace writes")
    count, wanted = len(record.words), ARGUMENTS[record.name]
    if record.result in (None, "?") or count == wanted or (record.name == "semctl" and count == 3):
        return
    raise NotTaken(f"it has {count} argument{'s' * (count != 1)}, and {record.name} has {wanted}")


def needs_system(record):
    """Whether the script needs a client of its own for it: to interrupt its wait, or to let its time pass."""
    if record.kind != "call" or record.name not in WAITING:
        return False
    return was_interrupted(record) or record.result in (None, "?") or (has_timeout(record) and record.error == "EAGAIN")


def child_of(record):
    """The number of the new thread that a call tells, as strace writes it at the heads of its lines; None where it tells none."""
    found = TRANSLATED.search(record.result or "")
    number = int(found[1]) if found else record.answer
    return number if number and number <= LAST_PID else None


def is_of_dying(record):
    """Whether a line is one that strace writes while the threads of a process end together."""
    return record.kind == "end" or (record.kind == "resumed" and record.call.result == "?")


class Plan:
    """Goes through the records once. `notes` has what isn't a step: records, each with the thread that it is of, or None, and a text."""

    def __init__(self, records, opening, source, with_system):
        self.records, self.opening, self.source, self.needs_system = records, opening, source, False
        self.clients, self.steps, self.skipped, self.told = Clients(with_system), [], {}, []
        self.living, self.processes, self.threads, self.born = {}, {}, [], set()
        self.births = {child_of(it): it for it in reversed(records) if it.kind == "call" and it.name in FORKS and child_of(it)}
        for record in records:
            self.take(record)
        self.settle()

    def take(self, record):
        if record.kind == "resumed":
            if record.call.name == "execve":
                self.exec(record.call, self.thread_of(record))
            return
        thread = self.thread_of(record)
        if record.kind == "end":
            self.end(record, thread)
        elif record.kind == "superseded":
            self.supersede(record, thread)
        elif record.kind == "other":
            self.told.append((record, None, f"not taken: {record.reason}"))
            if record.name in CALLS:
                self.steps.append(Step("cut", record, None))
        elif record.kind == "call":
            try:
                self.call(record, thread)
            except DAMAGED as why:
                self.told.append((record, thread, f"not taken: {reason(why)}"))
        if record.kind not in ("end", "superseded"):
            thread.last_at = max(thread.last_at, record.at if record.result in (None, "?") else record.until)
            thread.process.last_at = max(thread.process.last_at, thread.last_at)

    def thread_of(self, record):
        thread = self.living.get(record.pid) or self.born_later(record) or self.begin(record)
        thread.process.is_seen = True
        thread.seen_at = record.at if thread.seen_at is None else thread.seen_at
        return thread

    def add(self, thread, at):
        """A thread that lives from here on."""
        thread.first_at = at
        self.threads.append(thread)
        self.living[thread.pid], self.processes[thread.pid] = thread, thread.process
        return thread

    def begin(self, record):
        """A process of which no call tells that it was born. The first one has the client's line as its birth."""
        is_first = not self.threads
        thread = self.add(Thread(record.pid, *self.credentials(record), Process(record.pid)), record.at)
        thread.process.is_known = is_first and record.name == "execve" and record.answer == 0
        if not is_first:
            self.birth("begin", record, thread, thread)
        return thread

    def birth(self, kind, record, thread, child):
        step = Step(kind, record, thread)
        step.child, step.position = child, child.first_at
        step.words = [str(child.process.number), identity(child.creds)]
        step.attachments = list(thread.process.attached.values()) if kind == "fork" else []
        self.steps.append(step)

    def born_later(self, record):
        """The thread whose first line stands before that of the call that tells its birth: strace may have written it between that call's parts."""
        call = self.births.get(record.pid)
        if call is None or call in self.born or call.at <= record.at or call.pid not in self.living:
            return None
        if any(it.kind == "end" and it.pid == record.pid for it in self.records[record.at : call.at]):
            return None
        self.fork(call, self.living[call.pid], record.at)
        return self.living.get(record.pid)

    def credentials(self, record):
        """Those of a process of which no call tells that it was born: as options say, or as the first process has them, and as its own calls
        tell before one changes them."""
        first = self.threads[0] if self.threads else None
        now = (first.creds if first else self.opening).copy()
        source = "as the first process" if first else self.source
        for it in self.records[record.at :] if record.at < len(self.records) else []:
            if it.pid != record.pid or it.kind != "call":
                continue
            if it.name in creds.SETTERS or (it.name == "execve" and it is not record):
                break
            if it.name in creds.READERS and it.answer is not None:
                before = now.key()
                self.read(now, it)
                if it.name in ("geteuid", "getresuid") and now.user != 0 and before != now.key() and self.source == "by default":
                    now.caps = now.permitted = frozenset()
                source = f"{it.place}" if before != now.key() else source
        if record.name == "execve":
            now.save()
        return now, source

    def read(self, now, record):
        try:
            ask_form(record)
            creds.read_into(now, record)
        except DAMAGED:
            pass

    def call(self, record, thread):
        if record.name in CALLS:
            self.steps.append(self.step(record, thread))
        elif record.name in creds.READERS:
            if record.answer is not None:
                self.read(thread.creds, record)
        elif record.name in creds.SETTERS:
            ask_form(record)
            self.change(record, thread)
        elif record.name in FORKS:
            self.fork(record, thread, record.at)
        elif record.name == "execve":
            if not record.resumed_at:
                self.exec(record, thread)
        elif record.name in ("unshare", "setns"):
            thread.process.bears_elsewhere |= record.answer == 0 and ("CLONE_NEWPID" in record.text or "CLONE_NEW" not in record.text)
        else:
            self.skipped[record.name] = self.skipped.get(record.name, 0) + 1

    def step(self, record, thread):
        try:
            ask_form(record)
            step = Step("call", record, thread)
            self.attach(step)
            self.tell_credentials(record, thread)
        except DAMAGED as why:
            step = Step("untaken", record, thread)
            step.why = reason(why)
        return step

    def attach(self, step):
        """What shmat attaches, and what shmdt detaches."""
        record, attached = step.record, step.thread.process.attached
        if record.name == "shmat":
            step.attachment = Attachment(record)
            if re.match("0x", record.result or ""):
                attached[record.result] = step.attachment
        elif record.name == "shmdt" and is_address(record.words[0]):
            step.attachment = attached.pop(record.words[0], None) if record.answer == 0 else attached.get(record.words[0])

    def tell_credentials(self, record, thread):
        """Those that the trace has told by now, where the script's thread has others."""
        words = identity(thread.creds)
        if words != thread.told:
            step = Step("assume", record, thread)
            step.words, step.why, thread.told = [words], f"{thread.creds}", words
            self.steps.append(step)

    def end(self, record, thread):
        del self.living[record.pid]
        thread.ended_at = thread.process.ended_at = record.at
        thread.process.alive -= 1
        step = Step("exit", record, thread, self.earliest_exit(record, thread))
        step.is_last = not thread.process.alive
        self.steps.append(step)

    def earliest_exit(self, record, thread):
        """From where on a thread may have ended: strace may write a line of each other process before it writes the end, and the lines of threads
        that end with it."""
        process, seen, at = thread.process, set(), record.at
        last_at = thread.last_at if process.alive else process.last_at
        while at - 1 > last_at and self.records[at - 1].pid not in seen:
            at -= 1
            before = self.records[at]
            if self.processes.get(before.pid) is not process or not is_of_dying(before):
                seen.add(before.pid)
        return at - 1 if at < record.at else record.at

    def supersede(self, record, leader):
        """A thread makes execve: all others end, and it goes on under the number of the process."""
        thread = self.living.pop(record.heir, leader)
        if thread.process is not leader.process:
            self.end(record, leader)
        elif thread is not leader:
            leader.ended_at = record.at
            leader.process.alive -= 1
        self.living[record.pid], self.processes[record.pid] = thread, thread.process
        self.replace(record, thread, thread.last_at)

    def fork(self, record, parent, at):
        """A new thread, or a new process, which has attached what its parent has, but where it shares the parent's memory."""
        number = child_of(record)
        is_told = not parent.process.is_elsewhere or TRANSLATED.search(record.result or "")
        if number is None or number in self.living or record in self.born or not is_told:
            return
        self.born.add(record)
        is_thread, shares = "CLONE_THREAD" in record.text, record.name == "vfork" or "CLONE_VM" in record.text
        kind = "clone" if is_thread else "begin" if shares else "fork"
        process = parent.process if is_thread else self.process_of(number, parent, record)
        if kind == "fork":
            process.attached = dict(parent.process.attached)
        source = f"as {f'process {record.pid}' if record.pid else 'its parent'} at {record.place}"
        child = self.add(Thread(number, parent.creds.copy(), source, process, None if kind == "begin" else parent), at)
        self.birth(kind, record, child if kind == "begin" else parent, child)

    def process_of(self, number, parent, record):
        is_elsewhere = parent.process.is_elsewhere or parent.process.bears_elsewhere or "CLONE_NEWPID" in record.text
        return Process(number, parent.process.is_known, is_elsewhere)

    def exec(self, record, thread):
        """execve, but that by which strace began the trace."""
        if record.answer == 0 and record.at != thread.first_at:
            self.replace(record, thread, record.at)

    def replace(self, record, thread, since):
        """What execve does when the other threads have ended: it detaches all that is attached, and changes credentials, of which the script's
        exec changes the saved user and group."""
        step = Step("exec", record, thread, max(since, thread.process.ended_at))
        step.attachments = list(thread.process.attached.values())
        self.steps.append(step)
        thread.creds.after_exec(self.opening.caps)
        thread.told = thread.told.split(" saved=")[0]
        thread.process.attached = {}

    def change(self, record, thread):
        """A call that changes credentials: a setcreds where that says the same, and else what it leaves is told before the next call."""
        users, groups, extra = creds.asked(thread.creds, record)
        now, after = thread.creds, creds.followed(thread.creds, record)
        only_effective = all(it[0] == was[0] and it[2] == was[2] for it, was in ((users, now.users), (groups, now.groups_of_ids)))
        if record.name != "capset" and only_effective and (record.error or after.caps == now.caps) and len(extra or ()) <= 32:
            self.tell_credentials(record, thread)
            step = Step("creds", record, thread)
            step.words = ["setcreds", str(users[1]), str(groups[1])] + ([] if extra is None else ["groups=" + (",".join(map(str, extra)) or "-")])
            self.steps.append(step)
            if not record.error:
                thread.creds, thread.told = after, identity(after)
        elif record.error:
            raise NotTaken("setcreds doesn't change real and saved users, nor capabilities")
        else:
            thread.creds = after
            self.told.append((record, thread, f"followed: {after}"))

    def settle(self):
        """Leaves out what is of threads that no call needs, and gives the others clients. A child with attachments is needed, as it is counted,
        and so is a thread whose execve ends others that are."""
        for step in self.steps:
            if step.kind in ("call", "untaken"):
                step.thread.need()
            elif step.attachments and step.child:
                step.child.need()
        needed = {it.process for it in self.threads if it.is_needed}
        for step in self.steps:
            if step.kind == "exec" and step.thread.process in needed:
                step.thread.need()
        self.steps = [it for it in self.steps if it.is_needed]
        self.notes = [(record, text) for record, thread, text in self.told if thread is None or thread.is_needed]
        for thread in self.threads:
            if thread.is_needed:
                self.clients.give(thread)
        for step in self.steps:
            self.place(step)
        self.steps = [it for it in self.steps if it.kind != "left out"]
        self.know()

    def place(self, step):
        """A fork is done before the first line of the child. What a thread without a client does isn't taken."""
        child = step.child
        if child and child.seen_at is not None:
            step.until = max(step.position, min(step.until, child.seen_at))
        if (child or step.thread) in self.clients.left_out:
            is_told = step.kind in ("call", "creds", "untaken")
            step.kind, step.why = "untaken" if is_told else "lost" if child and step.attachments else "left out", step.why or ALL_TAKEN

    def know(self):
        """The numbers that are those of a process of the trace, and of no other."""
        processes = {it.process for it in self.threads}
        unsure = {it.process for it in self.clients.left_out} | {it for it in processes if not it.is_known or not it.is_seen}
        self.numbers = {it.number for it in processes} - {it.number for it in unsure}
        self.has_strangers = any(not it.is_known for it in processes)

    def tells_apart(self, thread, name, own, found):
        """Whether a process number that a thread is told can't be the definitions' one: both are of processes that the trace has from their starts,
        or nobody's. 0 is also what another pid namespace's process has, and who isn't in the trace may have forked or ended with a segment."""
        process = thread.process
        if not process.is_known or process.is_elsewhere or (name == "lpid" and self.has_strangers):
            return False
        return {own, found} <= self.numbers | {0} and (found != 0 or own == process.number)
