"""A run of a plan's steps by the program, line by line, since the identifiers of later lines are those that it answers."""

from copy import copy

from calls import Objects, ident_of, judged, remark, timeout_of, words_of
from plan import CALLS, has_timeout, was_interrupted
from processes import SYSTEM, SYSTEM_NUMBER, identity
from sessions import Session
from values import DAMAGED, reason

# The verdict on a call whose answer isn't in the trace.
OPEN = "open"
# Limits of the language where no line sets them.
DEFAULTS = {"msgmax": 8192, "semopm": 500}


class BadLine(Exception):
    """A limit or a client that the language doesn't take."""


class Otherwise(Exception):
    """The first call that is answered otherwise, where the run was to stop there."""

    def __init__(self, step):
        super().__init__()
        self.step = step


class Run:
    """One run. `verdicts` has for each step whether it is as defined, None where it isn't taken, OPEN where it can't be told, and the text that says
    so."""

    def __init__(self, program, plan, limits, stops_at=None):
        self.plan, self.limits, self.session = plan, limits, Session(program)
        self.objects, self.numbers, self.answers, self.waiting, self.verdicts = Objects(), {}, {}, {}, {}
        self.objects.msgmax, self.objects.semopm = (limits.get(it, DEFAULTS[it]) for it in ("msgmax", "semopm"))
        self.script, self.rows, self.notes, self.now, self.stops_at = [], [], [], 0, stops_at
        self.deadlines, self.ended_by_exit, self.unborn = {}, set(), {}
        self.began = next((it.stamp for it in plan.records if it.stamp is not None), 0)

    def carry_out(self):
        try:
            self.head()
            for _, is_end, _, step in events(self.plan.steps):
                self.do(step, is_end)
        finally:
            self.session.end()
        return self

    def do(self, step, is_end):
        (self.finish if is_end else self.begin)(step)

    def place(self):
        """What has come of the run so far, to go back to."""
        grown = [len(it) for it in (self.answers, self.verdicts, self.script, self.rows, self.notes)]
        own = {name: copy(getattr(self, name)) for name in ("numbers", "waiting", "deadlines", "ended_by_exit", "unborn", "now")}
        return self.session.place(), grown, own, self.objects.copy()

    def back(self, place):
        """Goes back to where it was, from where it may go on in another order."""
        session, grown, own, objects = place
        self.session.back(session)
        for it, count in zip((self.answers, self.verdicts), grown):
            while len(it) > count:
                it.popitem()
        for it, count in zip((self.script, self.rows, self.notes), grown[2:]):
            del it[count:]
        for name, it in own.items():
            setattr(self, name, copy(it))
        self.objects = objects.copy()

    def head(self):
        for name, value in self.limits.items():
            if DEFAULTS.get(name) != value:
                self.head_line(f"limit {name} {value}")
        clients, first = self.plan.clients, self.plan.threads[0]
        for client in clients.all:
            for thread in client.threads:
                self.script.append(comment(thread_text(client, thread)))
            self.head_line(f"client {client.name} {identity(first.opening) if first in client.threads else '0 0'}")
        if clients.with_system:
            self.send(f"client {SYSTEM} 0 0 caps=SYS_ADMIN", f"{SYSTEM} interrupts calls, kills processes that wait, and lets the time pass")
        numbers = [f"{SYSTEM} name {SYSTEM_NUMBER}"] if clients.with_system else []
        if first.client and (first.pid or len(clients.all) > 1):
            numbers.append(f"{first.client.name} name {first.process.number}")
        ends = [f"{client.name} exit" for client in clients.all if first not in client.threads]
        for lines, why in ((ends, "threads that begin later"), (numbers, "numbers of processes as in the trace")):
            for line in lines:
                self.send(line, why if line is lines[0] else None)

    def head_line(self, line):
        answer = self.send(line)
        if answer:
            raise BadLine(f"'{line}' isn't taken by the language: {answer}")

    def send(self, line, why=None, step=None):
        """Writes a line, and keeps what it answered: to the step itself, and to those whose wait it ended. A line that the language doesn't
        take isn't left in the script."""
        if why:
            self.script.append(comment(why))
        self.script.append(line)
        own = None
        for row in self.session.ask(line):
            if row.startswith("line "):
                del self.script[-2 if why else -1 :]
                return row
            self.rows.append(row)
            if row.startswith("  "):
                continue
            head, name, text = row.split(" ", 2)
            if head.endswith(".0") or head == "-":
                own = text
            elif name in self.waiting:
                self.answers[self.waiting.pop(name)] = (text, step)
        return own

    def pass_time(self, step):
        """The clock goes on to when the step came, but never to a deadline that the trace hasn't reached. It counts nanoseconds, and stands
        where nothing asks for it."""
        if step.record.stamp is None or not (self.deadlines or has_timeout(step.record)):
            return
        now = int((step.record.stamp - self.began) * 10**9)
        now = min([now, 2**64 - 1, *(it - 1 for it in self.deadlines.values())])
        if now > self.now:
            self.now = now
            self.send(f"clock {now}")

    def begin(self, step):
        if step.kind in ("call", "creds") and step.thread in self.unborn:
            self.not_taken(step, self.unborn[step.thread])
        elif step.kind == "untaken":
            self.not_taken(step, step.why)
        elif step.thread not in self.unborn:
            births = {"fork": self.birth, "clone": self.birth, "begin": self.birth, "lost": self.lose}
            kinds = {"call": self.call, "creds": self.call, "cut": self.cut, "exit": self.exit, "exec": self.exec, "assume": self.assume, **births}
            kinds[step.kind](step)

    def cut(self, step):
        self.objects.not_taken(step.record)

    def not_taken(self, step, why):
        self.verdicts[step] = (None, why)
        if step.record.name in CALLS:
            self.objects.not_taken(step.record)

    def call(self, step):
        try:
            words = step.words or words_of(step, self.objects, self.numbers)
        except DAMAGED as why:
            self.not_taken(step, reason(why))
            return
        if step.client.name in self.waiting:
            self.not_taken(step, f"the definitions let {step.client.name} wait in the call of {self.waiting[step.client.name].record.place}")
            return
        self.pass_time(step)
        if words[0] == "semtimedop":
            self.deadlines[step] = min(self.now + timeout_of(step.record), 2**64 - 1)
        own = self.send(" ".join([step.client.name, *words]), f"{step.record.place}: {step.record.text}", step)
        if own == "waits":
            self.waiting[step.client.name] = step
        elif own is None or own.startswith("line "):
            self.not_taken(step, f"the language doesn't take it: {own}")
        else:
            self.answers[step] = (own, None)
            if own.startswith("attached "):
                self.numbers[step.attachment] = int(own.split()[1])

    def system(self, line, step):
        """A line of the client that interrupts calls and lets time pass; False where the script hasn't this client yet."""
        if self.plan.clients.with_system:
            record = step.record
            text = record.place.text if record.kind == "end" else record.result or "it has no end"
            self.send(f"{SYSTEM} {line}", f"{record.place}: {text}", step)
        return self.plan.clients.with_system

    def interrupt(self, client, step):
        return self.system(f"interrupt {client.name}", step)

    def finish(self, step):
        """The end of a call: here at the latest it must be answered."""
        if step.kind not in ("call", "creds") or step in self.verdicts:
            return
        record = step.record
        deadline = self.deadlines.pop(step, None)
        if step not in self.answers:
            if was_interrupted(record):
                self.interrupt(step.client, step)
            elif deadline is not None and record.error == "EAGAIN" and self.plan.clients.with_system:
                self.now = max(self.now, deadline)
                self.send(f"clock {self.now}")
                self.system(f"interrupt {SYSTEM}", step)
        self.verdicts[step] = self.verdict(step)
        if self.stops_at is not None and self.verdicts[step][0] is False and step not in self.stops_at:
            raise Otherwise(step)

    def verdict(self, step):
        record = step.record
        if step not in self.answers:
            if record.result is None:
                return True, "it waits at the end of the trace"
            self.plan.needs_system = True
            self.interrupt(step.client, step)
            return False, "the definitions let it wait"
        row, ended_by = self.answers[step]
        if step in self.ended_by_exit or record.result in (None, "?") and row.endswith((" interrupted", " ended")):
            return True, f"it waits until its {'process' if step.thread.process.count == 1 else 'thread'} ends"
        if record.result in (None, "?"):
            return OPEN, f"its answer isn't in the trace; the definitions answer {row}"
        try:
            is_so, text = judged(step, row, self.objects, self.plan)
            more = remark(record, row) if is_so and not record.error else ""
        except DAMAGED as why:
            return None, f"its answer can't be read: {reason(why)}"
        if ended_by and ended_by is not step and is_so:
            text += f", after a wait that {cause(ended_by)} ends"
        return is_so, text + more

    def birth(self, step):
        """A new process, or a new thread. What one does that the script can't begin isn't taken."""
        name, child = step.child.client.name, step.child
        line = {"fork": f"fork {name} {step.words[0]}", "clone": f"clone {name}", "begin": f"begin {' '.join(step.words)}"}[step.kind]
        own = self.send(f"{step.client.name} {line}", line_of(step.record), step)
        if own != "ok":
            self.unborn[child] = f"the script can't begin {child}: {own}"
            self.notes.append((step.record, f"not taken: {self.unborn[child]}"))
            self.lose(step)

    def lose(self, step):
        """Of what a process has attached that isn't in the script the count isn't known."""
        for it in step.attachments:
            self.objects.lose("m", ident_of(it.record), step.record)

    def exit(self, step):
        """A thread ends. One that waits is interrupted first, or the process killed of which it is the last."""
        waiting = self.waiting.get(step.client.name)
        if waiting:
            self.ended_by_exit.add(waiting)
            has_system = self.system(f"kill {step.thread.process.number}" if step.is_last else f"interrupt {step.client.name}", step)
            if step.is_last or not has_system:
                return
        self.send(f"{step.client.name} exit", f"{step.record.place}: {step.record.place.text}", step)

    def exec(self, step):
        self.send(f"{step.client.name} exec", line_of(step.record), step)

    def assume(self, step):
        self.send(f"{step.client.name} assume {step.words[0]}", f"{step.record.place}: by now it is {step.why}", step)


def line_of(record):
    """Where a record stands in the trace, and its call, or its line where it is none."""
    return f"{record.place}: {record.text or record.place.text}"


def comment(text):
    return f"# {text}"[:160].rstrip()


def thread_text(client, thread):
    then = "" if thread is client.threads[0] else "then "
    return f"{client.name} is {then}{thread}: {thread.opening}, {thread.source}"


def cause(step):
    name = step.record.name or "exit"
    return f"{step.record.place}{f' [pid {step.record.pid}]' if step.record.pid else ''} {name}"


def event(at, step, is_end):
    """An event of a step, which is made where its place is, and has ended when the trace says so, at the earliest then. Events are in order."""
    return (max(step.until + 0.4, step.position) if is_end else step.position), is_end, at, step


def events(steps):
    """The events of all steps in their order, two for each."""
    return sorted(event(at, step, is_end) for at, step in enumerate(steps) for is_end in (0, 1))
