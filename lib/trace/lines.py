"""The lines of a trace: calls, ends and births of threads, in the order in which they came, and lines that are none of these."""

import bisect
import errno
import pathlib
import re

from streams import read_in
from values import parts

SECONDS = r"[0-9]{1,12}\.[0-9]+"
STAMP = rf"(?:(?P<day>[0-9]{{2}}:[0-9]{{2}}:[0-9]{{2}}(?:\.[0-9]+)?)|(?P<seconds>{SECONDS}))\s+(?:\(\+\s*[0-9.]+\)\s+)?"
HEAD = re.compile(rf"\s*(?:\[pid\s+(?P<pid>[0-9]{{1,9}})\]\s+|(?P<pid_of_file>[0-9]{{1,9}})\s+)?(?:{STAMP})?(?P<rest>.*)", re.S)
DURATION = rf"(?: <({SECONDS}|[0-9]{{1,9}})>)?"
WHOLE = re.compile(rf"(\w+)\((.*)\)\s+=\s+(.*?){DURATION}$", re.S)
OPEN = re.compile(r"(\w+)\((.*?) ?<(?:unfinished|pid changed to [0-9]{1,9}) \.\.\.>$", re.S)
CUT_SHORT = re.compile(r"(\w+)\((.*?) ?<unfinished \.\.\.>\)\s+=\s+\?$", re.S)
CUT = re.compile(r"(\w+)\((.*)", re.S)
RESUMED = re.compile(rf"<\.\.\. (\w+) resumed>(.*)\)\s+=\s+(.*?){DURATION}$", re.S)
END = re.compile(r"\+\+\+ (?:exited with|killed by).*\+\+\+$")
# Another thread of the process makes execve, and goes on under this number.
SUPERSEDED = re.compile(r"\+\+\+ superseded by execve in pid ([0-9]{1,9}) \+\+\+$")
ATTACHED = re.compile(r"strace: Process ([0-9]{1,9}) attached$")
# What a call answered, of which the name of an error is one that there is.
NUMBER = re.compile(r"(0x[0-9a-f]{1,16}|0|[1-9][0-9]{0,18})(?![^\s(<])")
ERROR = re.compile(r"(?:-1|\?) (E[A-Z0-9_]+)(?!\S)")
ERRORS = {*errno.errorcode.values(), "ERESTARTSYS", "ERESTARTNOINTR", "ERESTARTNOHAND", "ERESTART_RESTARTBLOCK"}
DAY = 86400
# Records of threads that end.
ENDS = ("end", "superseded")


class BadFile(Exception):
    """A file that can't be read or is no trace; its text says why."""


class Place:
    """Where a line stands: its file, where there are several, its number, and what stands there."""

    def __init__(self, name, line, text):
        self.name, self.line, self.text = name, line, text

    def __str__(self):
        return f"{self.name} line {self.line}" if self.name else f"line {self.line}"


class Record:
    """What a line tells: a call, its end where that has a line of its own, an end or a birth of a thread, or a line that isn't taken. `at` and
    `until` are positions among all lines: between these two the kernel did what it tells."""

    def __init__(self, kind, place, pid, stamp):
        self.kind, self.place, self.pid, self.stamp = kind, place, pid, stamp
        self.at = self.until = 0
        self.name, self.words, self.text, self.reason, self.open_text = "", [], "", "", None
        self.result, self.duration, self.resumed_at, self.end_stamp = None, None, None, stamp
        self.call = self.heir = None

    def ended(self, result, duration):
        """The call's result, as strace writes it: `0`, `-1 EACCES (..)`, `? ERESTARTNOHAND (..)` or `?`."""
        self.result = result.strip()
        self.duration = float(duration) if duration else None

    @property
    def error(self):
        found = ERROR.match(self.result or "")
        return found[1] if found and found[1] in ERRORS else None

    @property
    def answer(self):
        """The number that the call answered; None where it failed or didn't end."""
        found = NUMBER.match(self.result or "")
        return int(found[1], 0) if found else None

    @property
    def is_readable(self):
        """Whether what the call answered can be read, or it has no end."""
        return self.result in (None, "?") or self.error is not None or self.answer is not None

    @property
    def may_be_done(self):
        """Whether the kernel may have done the call: it was granted, or what it answered isn't known."""
        return self.kind == "other" or self.answer is not None or not self.is_readable

    @property
    def is_split(self):
        return self.until > self.at


class Line:
    """A line without its head: which process it is of, when it came, and the rest."""

    def __init__(self, place, pid, stamp, rest):
        self.place, self.stamp, self.rest = place, stamp, rest
        found, superseded = ATTACHED.match(rest), SUPERSEDED.match(rest)
        self.is_birth, self.is_end = found is not None, END.match(rest) is not None
        self.pid, self.heir = int(found[1]) if found else pid, int(superseded[1]) if superseded else None


class Clock:
    """The time stamps of a file's lines in seconds. Those of -r are added up, and those of -t go on after midnight."""

    def __init__(self):
        self.now, self.days = None, 0

    def stamp(self, head):
        if head["day"]:
            hours, minutes, seconds = head["day"].split(":")
            now = int(hours) * 3600 + int(minutes) * 60 + float(seconds) + self.days * DAY
            if self.now is not None and now < self.now - DAY / 2:
                self.days, now = self.days + 1, now + DAY
            self.now = now
        elif head["seconds"]:
            seconds = float(head["seconds"])
            self.now = seconds if seconds > 1e8 else (self.now or 0) + seconds
        return self.now


def lines_of(name, text, pid_of_file):
    """The lines of a file. The message that a process was attached may stand inside another line, which goes on in the next one."""
    found, clock, torn = [], Clock(), None
    for at, line in enumerate(text.replace("\r\n", "\n").split("\n"), 1):
        at, line = (torn[0], torn[1] + line) if torn else (at, line)
        message = re.search(r"strace: Process \d+ attached$", line)
        torn = (at, line[: message.start()]) if message and message.start() else None
        line = message[0] if torn else line
        head = HEAD.match(line)
        pid = head["pid"] or head["pid_of_file"]
        found.append(Line(Place(name, at, head["rest"].strip()), int(pid) if pid else pid_of_file, clock.stamp(head), head["rest"].rstrip()))
    return found


def name_processes(lines):
    """Gives the lines that lack a process number that of the one process that is left: strace leaves it off where it follows no other.
    A process whose number isn't told at all has the number 0."""
    alive, born = [], {it.pid for it in lines if it.is_birth}
    first = next((it.pid for it in lines if it.pid is not None and it.pid not in born), 0)
    for line in lines:
        if line.pid is None:
            line.pid = alive[0] if len(alive) == 1 else first
        ended = line.heir if line.heir else line.pid if line.is_end else None
        if ended in alive:
            alive.remove(ended)
        elif not line.is_end and line.pid not in alive and not line.rest.startswith("strace: "):
            alive.append(line.pid)
        if line.is_birth and line.pid not in alive:
            alive.append(line.pid)


class Reader:
    """The lines of one file, joined to records."""

    def __init__(self):
        self.records, self.open, self.superseded = [], {}, set()

    def read(self, line):
        rest = line.rest
        if not rest or rest.startswith("---") or (rest.startswith("strace: ") and not line.is_birth):
            return
        if line.is_birth or line.is_end:
            if line.is_end:
                self.open.pop(line.pid, None)
            self.records.append(Record("birth" if line.is_birth else "end", line.place, line.pid, line.stamp))
        elif line.heir:
            self.supersede(line)
        elif RESUMED.match(rest):
            self.resume(line.place, line.pid, line.stamp, RESUMED.match(rest))
        else:
            self.begin(line.place, line.pid, line.stamp, rest)

    def supersede(self, line):
        """The execve of another thread: it doesn't return there, and what resumes it has the process's number."""
        record = Record("superseded", line.place, line.pid, line.stamp)
        record.name, record.heir = "execve", line.heir
        self.records.append(record)
        self.superseded.add(line.pid)
        self.open.pop(line.pid, None)
        if line.heir in self.open:
            self.open.pop(line.heir).ended("?", None)

    def begin(self, place, pid, stamp, rest):
        """A line on which a call begins, or that is none of strace."""
        record = Record("call", place, pid, stamp)
        found = CUT_SHORT.match(rest) or WHOLE.match(rest) or OPEN.match(rest)
        if not found:
            cut = CUT.match(rest)
            record.kind, record.reason = "other", "the line is cut" if cut else "no line of strace"
            record.name, record.words = (cut[1], parts(cut[2])[:-1]) if cut else ("", [])
        else:
            record.name, record.text = found[1], re.sub(r"\)\s+= (.*?)( <[\d.]+>)?$", r") = \1", rest)
            if found.re is WHOLE:
                record.ended(found[3], found[4])
            elif found.re is CUT_SHORT:
                record.ended("?", None)
            record.words, record.open_text = parts(found[2]), found[2] if found.re is OPEN else None
            if found.re is OPEN:
                self.open[pid] = record
        self.records.append(record)

    def resume(self, place, pid, stamp, found):
        record = self.open.pop(pid, None)
        if record is None and found[1] == "execve" and pid in self.superseded:
            return
        if record is None or record.name != found[1]:
            other = Record("other", place, pid, stamp)
            other.reason = f"{found[1]} resumed, whose beginning isn't there"
            self.records.append(other)
            return
        rest = re.sub(r"\s*<unfinished \.\.\.>$", "", found[2])
        record.words = parts(record.open_text + rest)
        record.text = f"{record.name}({record.open_text}{rest}) = {found[3]}"
        record.ended(found[3], found[4])
        record.end_stamp, record.open_text = stamp, None
        record.resumed_at = Record("resumed", place, pid, stamp)
        record.resumed_at.call = record
        self.records.append(record.resumed_at)


def read_file(path, name):
    """The records of a file."""
    shown = path or "standard input"
    try:
        content = read_in() if path is None else pathlib.Path(path).read_bytes()
    except OSError as why:
        raise BadFile(f"{shown}: {why.strerror}") from why
    if not content.strip():
        raise BadFile(f"{shown}: it is empty")
    number = re.search(r"\.([0-9]{1,9})$", path or "") if name else None
    records = records_of(name, content, int(number[1]) if number else None)
    if not any(it.kind in ("call", "end", "birth") for it in records):
        raise BadFile(f"{shown}: it is no trace: none of its lines is one of strace")
    return records


def records_of(name, content, pid_of_file):
    """The records of a file's bytes."""
    lines, reader = lines_of(name, content.decode("utf-8", "replace"), pid_of_file), Reader()
    name_processes(lines)
    for line in lines:
        reader.read(line)
    return reader.records


def merged(files):
    """The records of several files by time. Such a file has no line for the end of a call, so this may be as late as the next line."""
    for path, records in files:
        if any(it.stamp is None for it in records):
            raise BadFile(f"{path}: its lines have no times: record several files with -ff -ttt")
    together = sorted((it for _, records in files for it in records), key=lambda it: it.stamp)
    stamps = [it.stamp for it in together]
    for at, record in enumerate(together):
        record.at = record.until = at
    for _, records in files:
        for record, following in zip(records, [*records[1:], None]):
            if record.kind != "call" or record.resumed_at:
                continue
            record.until = following.at - (record.result != "?") if following else len(together)
            if record.duration is not None:
                ended = bisect.bisect_right(stamps, record.stamp + record.duration) - 1
                record.until = max(record.at, min(record.until, ended))
    return together


def numbered(records):
    """Positions of the records of one file."""
    for at, record in enumerate(records):
        record.at = record.until = at
    for record in records:
        if record.resumed_at and record.result != "?":
            record.until = record.resumed_at.at
        elif record.kind == "call" and record.result in (None, "?"):
            record.until = next((it.at for it in records[record.at + 1 :] if it.pid == record.pid and it.kind in ENDS), len(records))
    return records


def read(paths):
    """All records, in their order."""
    if len(paths) < 2:
        return numbered(read_file(paths[0] if paths else None, ""))
    return merged([(it, read_file(it, pathlib.Path(it).name)) for it in paths])
