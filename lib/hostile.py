"""Tries a program ipcsh where memory is refused, where its streams break, and on lines that nobody should write. The last line counts.

    hostile.py memory PROGRAM LIBRARY SCRIPT..    each allocation of each script is refused in turn, and each two in a row
    hostile.py streams PROGRAM LIBRARY SCRIPT..   each read fails in turn; each write fails, takes one byte or none
    hostile.py lines PROGRAM COUNT                lines of random bytes, of random words, and good lines with one byte changed

LIBRARY is the built checks/sweep.c or checks/streams.c. What is right is found from what the program prints itself: for the
script without a call, for the first lines alone, or without the bad lines.
"""

import getopt
import multiprocessing
import os
import pathlib
import random
import re
import subprocess
import sys

BAD = re.compile(rb"line (\d+): (.*)")
HINT = re.compile(rb"ipcsh: line (\d+): ")
# The row of a call that an allocation failed for.
REFUSED = re.compile(rb"- ([a-z][a-z0-9]*) error 12 ENOMEM memory")
NO_MEMORY = b"ipcsh: no memory"
# How many bytes a read gives at most where reads fail.
PIECE = 7


class Ran:
    """What a run did: its status, what it wrote, and the lines that it or a preloaded library wrote to standard error."""

    def __init__(self, status, output, errors):
        self.status, self.output, self.told = status, output, errors.splitlines()

    def was(self, word):
        return word in self.told

    @property
    def rows(self):
        return self.output.splitlines(keepends=True)


def run(program, text, **settings):
    """A run of the program on a text."""
    how = {"input": text, "stdout": subprocess.PIPE, "stderr": subprocess.PIPE, "close_fds": False, "timeout": 60}
    it = subprocess.run([program], env={**os.environ, **settings}, **how)
    return Ran(it.returncode, it.stdout, it.stderr)


# Refused memory


class Line:
    """A line of a script with its number there; of a removal by key also the get that looks the key up."""

    def __init__(self, number, text, get=None):
        self.number, self.text, self.get = number, text, get


# The options of the commands that make several calls, in the order of these, and the get by which a key is looked up.
OPTIONS = {b"ipcs": "qmsa", b"ipcrm": "q:m:s:Q:M:S:", b"ipcmk": "QM:S:p:"}
ORDER = {b"ipcs": "qms", b"ipcrm": "qmsQMS", b"ipcmk": "QMS"}
GETS = {"-Q": "msgget %s 0", "-M": "shmget %s 0 0", "-S": "semget %s 0 0"}


def divided(number, text):
    """The lines that make the calls of a line one by one, in their order."""
    words = text.split()
    if len(words) < 2 or words[1] not in OPTIONS:
        return [Line(number, text)]
    try:
        given, rest = getopt.getopt([it.decode("ascii") for it in words[2:]], OPTIONS[words[1]])
    except (getopt.GetoptError, UnicodeDecodeError):
        return [Line(number, text)]
    if rest or not given and words[1] != b"ipcs":
        return [Line(number, text)]
    if words[1] == b"ipcs" and (not given or ("-a", "") in given):
        given = [(f"-{it}", "") for it in ORDER[b"ipcs"]]
    shared = "".join(f" {name} {value}" for name, value in given if name == "-p")
    parts = sorted((it for it in given if it[0] != "-p"), key=lambda it: ORDER[words[1]].index(it[0][1]))
    name, command = words[0].decode(), words[1].decode()
    return [part(number, name, f"{command}{shared}", option, value[value.startswith("=") :]) for option, value in parts]


def part(number, name, command, option, value):
    """The line that makes one call of a command."""
    get = f"{name} {GETS[option] % value}".encode() if command == "ipcrm" and option in GETS else None
    return Line(number, f"{name} {command} {option} {value}".encode(), get)


class Script:
    """A script, and what the program prints for it and for the script without some of its calls."""

    def __init__(self, program, path):
        self.program, self.text, self.outputs, self.counts = program, pathlib.Path(path).read_bytes(), {}, {}
        self.whole = run(program, self.text)
        # A call that was refused memory has started the namespace: a line that came too late still does.
        self.late = {int(it[1]) for it in map(BAD.match, self.whole.rows) if it and it[2] == b"late"}
        texts = self.text.split(b"\n")
        self.lines = [Line(at, it) for at, it in enumerate(texts if texts[-1] else texts[:-1], 1)]

    def ran(self, lines, after=b""):
        """A run of lines, with this text after each."""
        text = b"".join((b"?" if it.number in self.late else it.text) + after + b"\n" for it in lines)
        is_open = not after and lines and lines[-1] is self.lines[-1] and not self.text.endswith(b"\n")
        return run(self.program, text[:-1] if is_open else text)

    def renumbered(self, lines, row):
        """A row of a run of lines: a bad line has its number in the script."""
        bad = BAD.match(row)
        if not bad:
            return row
        number = lines[int(bad[1]) - 1].number
        return b"line %d: %s\n" % (number, b"late" if number in self.late else bad[2])

    def printed(self, lines):
        """The rows of lines, and the status."""
        key = tuple((it.number, it.text) for it in lines)
        if key not in self.outputs:
            ran = self.ran(lines)
            self.outputs[key] = [self.renumbered(lines, row) for row in ran.rows], ran.status
        return self.outputs[key]

    def starts(self, lines):
        """How many rows come before those of each line: a bad line after each tells."""
        key = tuple((it.number, it.text) for it in lines)
        if key not in self.counts:
            self.counts[key], count = [0], 0
            for row in self.ran(lines, b"\n?").rows:
                bad = BAD.match(row)
                if bad and int(bad[1]) % 2 == 0:
                    self.counts[key].append(count)
                else:
                    count += 1
        return self.counts[key]

    def without(self, lines, client, at):
        """The lists of lines that lack one call of a client, whose row would be the one with this index."""
        starts = self.starts(lines)
        for index, line in enumerate(lines):
            before, rest = lines[:index], lines[index + 1 :]
            if line.text.split()[:1] != [client] or not starts[index] <= at <= starts[index + 1]:
                continue
            parts = divided(line.number, line.text)
            if len(parts) > 1:
                yield from self.without([*before, *parts, *rest], client, at)
            elif starts[index] == at:
                yield before + rest
            elif parts[0].get and starts[index] + 1 == at:
                yield [*before, Line(line.number, parts[0].get), *rest]

    def is_right(self, rows, ends, lines):
        """The rows are those of the lines but for a row for each call that was refused memory; at a fault they begin them."""
        mark = next((at for at, row in enumerate(rows) if REFUSED.match(row)), None)
        if mark is not None:
            client = REFUSED.match(rows[mark])[1]
            rest = rows[:mark] + rows[mark + 1 :]
            return any(self.is_right(rest, ends, fewer) for fewer in self.without(lines, client, mark))
        wanted, status = self.printed(lines)
        if ends == 2:
            return b"".join(wanted).startswith(b"".join(rows))
        return rows == wanted and ends == status


def lines_told(ran):
    """The numbers of the lines that a run's hints are about."""
    return {int(it[1]) for it in map(HINT.match, ran.told) if it}


def lines_bad(ran):
    return {int(it[1]) for it in map(BAD.match, ran.rows) if it}


def why_wrong(script, ran):
    """Why a run with refused allocations is wrong, or None."""
    if ran.status == 2 and not ran.was(NO_MEMORY):
        return "it ended by another fault"
    if lines_told(ran) - lines_bad(ran) - lines_told(script.whole):
        return "it has a hint for a line that isn't bad"
    if ran.status != 2 and (ran.status, ran.output) == (script.whole.status, script.whole.output):
        return None
    return None if script.is_right(ran.rows, ran.status, script.lines) else "these aren't the rows of the script without a call"


class Sweep:
    """The runs of a script in which an allocation was refused, and as many after it as make a row: one for each allocation, in turn. Then
    there is also the status of the run with none."""

    def __init__(self, program, library, path, row):
        self.program, self.path, self.settings, self.status = program, path, {"LD_PRELOAD": library, "IN_A_ROW": str(row)}, None

    def __iter__(self):
        results, told = os.pipe()
        with open(self.path, "rb") as text, open(results, "rb") as stream:
            how = {"stdin": text, "stdout": subprocess.DEVNULL, "stderr": subprocess.DEVNULL, "pass_fds": [told]}
            whole = subprocess.Popen([self.program], env={**os.environ, **self.settings, "RESULTS": str(told)}, **how)
            os.close(told)
            for head in stream:
                status, output, errors = map(int, head.split())
                status = -os.WTERMSIG(status) if os.WIFSIGNALED(status) else os.WEXITSTATUS(status)
                yield Ran(status, stream.read(output), stream.read(errors))
            self.status = whole.wait()


def memory_task(task):
    """The runs of a script with refused allocations: how many there were, lines for what failed, whether a call was answered that memory
    was refused, and whether a hint was missing."""
    path, row = task[2:]
    script, sweep, seen, count, failed, answered, missing = Script(task[0], path), Sweep(*task), {}, 0, [], False, False
    for count, ran in enumerate(sweep, 1):
        what = ran.status, ran.output, *ran.told
        if what not in seen:
            seen[what] = why_wrong(script, ran)
            answered = answered or any(map(REFUSED.match, ran.rows))
            missing = missing or ran.status != 2 and len(ran.told) < len(script.whole.told)
        if seen[what]:
            failed.append(f"{path}: allocation {count}, {row} in a row: status {ran.status}: {seen[what]}")
    if sweep.status != script.whole.status or not count:
        failed.append(f"{path}: {count} allocations were refused, and with none the status is {sweep.status}")
    return count, failed, answered, missing


def memory(pool, program, library, *paths):
    sized = sorted(paths, key=os.path.getsize, reverse=True)
    results = list(pool.imap_unordered(memory_task, [(program, library, path, row) for path in sized for row in (1, 2)]))
    none = [] if any(it[2] for it in results) else ["no call was answered that memory was refused"]
    none += [] if any(it[3] for it in results) else ["no hint was missing where an allocation failed"]
    return sum(it[0] for it in results), none + [line for it in results for line in it[1]]


# Broken streams


def complete(text, size):
    """The complete lines of the first bytes of a text."""
    return text[: text.rfind(b"\n", 0, size) + 1]


def stopped(program, text, library, **settings):
    return run(program, text, LD_PRELOAD=library, **{name: str(value) for name, value in settings.items()})


def reads_fail(program, library, text):
    """For each read whether the run was right in which it failed."""
    for number in range(1, len(text) // PIECE + 3):
        ran = stopped(program, text, library, PIECE=PIECE, FAIL_READ=number)
        if not ran.was(b"stopped"):
            return
        rows = run(program, complete(text, (number - 1) * PIECE)).output
        yield ran.status == 2 and ran.was(b"ipcsh: read failed") and ran.output == rows, f"read {number}"


def writes_stop(program, library, text, how):
    """For each write whether the run was right in which it failed, or took one byte or none."""
    whole = run(program, text)
    for number in range(1, len(whole.output) + 2):
        ran = stopped(program, text, library, PIECE=PIECE, AT_WRITE=number, HOW=how)
        if not ran.was(b"stopped"):
            return
        if how == "one":
            yield (ran.status, ran.output) == (whole.status, whole.output), f"write {number} takes one byte"
        else:
            yield ran.status == 2 and ran.was(b"ipcsh: write failed") and whole.output.startswith(ran.output), f"write {number}, {how}"


def streams_task(task):
    program, library, path = task
    text = pathlib.Path(path).read_bytes()
    tried = [*reads_fail(program, library, text), *(it for how in ("fail", "one", "none") for it in writes_stop(program, library, text, how))]
    return len(tried), [f"{path}: {what}" for is_right, what in tried if not is_right]


def streams(pool, program, library, *paths):
    results = pool.map(streams_task, [(program, library, path) for path in paths], 1)
    return sum(it[0] for it in results), [line for it in results for line in it[1]]


# Lines that nobody should write

SCRIPT_LINES = 10_000
HEAD = b"client alice 100 10\nclient bob 200 20 groups=10 caps=IPC_OWNER\nlimit msgmni 100\n"
GOOD = b"""alice msgget 5 01666
bob msgsnd 0 1 t:hello 04000
alice msgrcv 0 100 0 04000
alice semget 6 2 01666
bob semop 0 0:1 1:0:04000
alice semop 0 0:-1:014000
alice semtimedop 0 0 0:-1
alice setall 0 1 2
bob getval 0 1
alice getncnt 0 0
alice shmget 7 64 01666
bob shmat 0 0
bob shmwrite 0 0 x:00ff
bob shmread 0 0 4
alice shmdt 0
alice stat q 0
alice set q 0 100 10 0600 -
alice rmid s 0
bob ipcs -q
alice ipcrm -Q 5
bob ipcmk -Q -p 640
alice interrupt 2
alice interrupt bob
bob setcreds 200 20 groups=10,20
bob assume 200 20 groups=10 caps=IPC_OWNER saved=100:10
bob exit
alice fork bob 9
alice clone bob
bob begin 5 200 20
alice begin 4 100 10 groups=20
alice name 7
alice exec
bob kill 7
clock 7
limit semmsl 9
client carl 1 1
# a comment""".splitlines()
WORDS = sorted({word for line in GOOD for word in line.split()} | set(b"0 1 2 -1 00 0x7fffffff 2147483648 4294967296 018 t: x:0 q s m - -- = : , + #".split()))


def documented():
    """Matches the rows that the documents have: those of docs/LANGUAGE.md, with its reasons and the refusals of docs/PROFILE.md."""
    docs = pathlib.Path(__file__).resolve().parent.parent / "docs"
    language, profile = ((docs / it).read_text(encoding="utf-8") for it in ("LANGUAGE.md", "PROFILE.md"))
    reasons = re.findall(r"^\| `([a-z-]+)` \|", language.partition("A bad line has one reason")[2].partition("\n## ")[0], re.M)
    refusals = [" ".join(it) for it in re.findall(r"^\| (\d+) \| (E\w+) \| `([\w-]+)`", profile, re.M)]
    fields = {
        **dict.fromkeys("TYPE ID UID CBYTES QNUM SIZE NATTCH NSEMS N".split(), r"\d+"),
        **{"PLACE.TURN": r"\d+\.\d+", "PLACE.0": r"\d+\.0", "NAME": "[a-z][a-z0-9]{0,15}", "x:HEX": "x:(?:[0-9a-f]{2})*", "N ..": r"\d+(?: \d+)*"},
        **{"K": "0x[0-9a-f]{8}", "M": "[0-7]{4}", "REASON": f"(?:{'|'.join(reasons)})", "NUMBER ERROR RULE": f"(?:{'|'.join(refusals)})"},
    }
    field = re.compile("|".join(re.escape(it) + r"(?!\w)" for it in sorted(fields, key=len, reverse=True)))
    rows = re.findall(r"^\| `((?:PLACE|-|line|  [qms] ).*?)` \|", language, re.M)
    patterns = [field.sub(lambda it: fields[it[0]], row.replace("N N ..", "N ..")) for row in rows]
    return re.compile(f"(?:{'|'.join(patterns)})\n".encode())


def random_bytes(dice):
    return bytes(it for it in dice.randbytes(dice.randrange(1, 40)) if it != 10)


def random_words(dice):
    return b" ".join(dice.choice(WORDS) for _ in range(dice.randrange(1, 7)))


def one_byte_changed(dice):
    line = bytearray(dice.choice(GOOD))
    line[dice.randrange(len(line))] = dice.choice([it for it in range(256) if it != 10])
    return bytes(line)


WAYS = [random_bytes, random_words, one_byte_changed]


def lines_task(task):
    """A script of such lines, and the same without those that are bad: how many lines there were, and what failed."""
    program, row, seed, count = task
    dice = random.Random(seed)
    lines = HEAD.splitlines() + [dice.choice(WAYS)(dice) if dice.random() < 0.9 else dice.choice(GOOD) for _ in range(count)]
    ran = run(program, b"".join(it + b"\n" for it in lines))
    bad = {int(it[1]): it[2] for it in map(BAD.match, ran.rows) if it}
    rest = b"".join(row for row in ran.rows if not BAD.match(row))
    alone = run(program, b"".join(it + b"\n" for at, it in enumerate(lines, 1) if at not in bad))
    failed = []
    if ran.status != (1 if bad else 0):
        failed.append(f"seed {seed}: status {ran.status}")
    strange = [it for it in ran.rows if not row.fullmatch(it)]
    if strange:
        failed.append(f"seed {seed}: no row of the documents: {strange[0]!r}")
    if (alone.status, alone.output) != (0, rest):
        failed.append(f"seed {seed}: the good lines alone are answered otherwise")
    return count, failed


def lines(pool, program, count):
    row, seeds = documented(), range((int(count) + SCRIPT_LINES - 1) // SCRIPT_LINES)
    results = pool.map(lines_task, [(program, row, seed, SCRIPT_LINES) for seed in seeds], 1)
    return sum(it[0] for it in results), [line for it in results for line in it[1]]


def main(part, *words):
    with multiprocessing.Pool(len(os.sched_getaffinity(0))) as pool:
        count, failed = {"memory": memory, "streams": streams, "lines": lines}[part](pool, *words)
    print("".join(f"FAILED {line}\n" for line in failed[:20]) + f"{count - len(failed)} passed, {len(failed)} failed")
    return 1 if failed or not count else 0


if __name__ == "__main__":
    sys.exit(main(*sys.argv[1:]))
