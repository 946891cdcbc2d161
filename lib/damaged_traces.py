"""Damages a line of a trace, and looks what ipcsh_trace says of the others. The last line counts.

    damaged_traces.py PROGRAM SEED COUNT TRACE..

COUNT traces are damaged, each in one line. Between the lines of each stand those of one more process, with a user and objects of its own (WITNESS):
what they are told doesn't change. Each other call has still its line, one before the damaged line the same verdict too. The status is 0 or 1.
"""

import pathlib
import random
import re
import sys

sys.path[:0] = [str(pathlib.Path(__file__).resolve().parent), str(pathlib.Path(__file__).resolve().parent / "trace")]

import creds
import lines
import main
import sessions

WITNESS = """geteuid() = 777
msgget(0x7e57aaaa, IPC_CREAT|0600) = 1900000001
msgget(0x7e57bbbb, 0600) = -1 ENOENT (No such file or directory)
msgsnd(1900000001, {mtype=7, mtext="witness"}, 7, 0) = 0
semget(IPC_PRIVATE, 2, IPC_CREAT|0600) = 1900000002
semtimedop(1900000002, [{sem_num=1, sem_op=3, sem_flg=SEM_UNDO}], 1, NULL) = 0
semctl(1900000002, 1, GETVAL, NULL) = 3
shmget(IPC_PRIVATE, 4096, IPC_CREAT|0400) = 1900000003
shmat(1900000003, NULL, 0) = -1 EACCES (Permission denied)
msgrcv(1900000001, {mtype=7, mtext="witness"}, 99, 0, IPC_NOWAIT) = 7
msgctl(1900000001, IPC_RMID, NULL) = 0""".split("\n")
PID = "1900001"
SIGNS = "0123456789abcdefx(){}[]\"\\|=<>-+?!.,:;/*& \t\r\x00\x0b\x0c\x85\xff"
NUMBERS = ["0", "-1", "00", "08", "0x", "4294967295", "4294967296", "04294967296", "-2147483649", "9223372036854775808", "-9223372036854775809",
           "18446744073709551616", "0x1ffffffffffffffff", "9" * 30, "9" * 5000, "1.5", "NULL", "1<<5", "IPC_CREAT|99999999999"]
TOLD = re.compile(r"line (\d+) ")
VERDICT = re.compile(r": as defined| but the definitions |: not taken: |: its answer isn't in the trace")


def with_witness(trace):
    """The lines of a trace with those of the witness between them, and their numbers. Each has the time of the line before it."""
    found, numbers, rest = [], [], list(WITNESS)
    for at, line in enumerate(trace):
        found.append(line)
        while rest and at >= (len(WITNESS) - len(rest)) * (len(trace) - 1) // len(WITNESS):
            stamp = lines.HEAD.match(line)["seconds"] or ""
            found.append(f"{PID} {stamp} {rest.pop(0)}".replace("  ", " "))
            numbers.append(len(found))
    return found, numbers


def changed_sign(line, chance):
    at = chance.randrange(len(line) + 1)
    sign = chance.choice(SIGNS)
    return chance.choice([line[:at] + line[at + 1 :], line[:at] + sign + line[at:], line[:at] + sign + line[at + 1 :]])


def changed_number(line, chance):
    found = list(re.finditer(r"0x[0-9a-f]+|\d+|[A-Z]+_[A-Z|_]+", line))
    it = chance.choice(found) if found else None
    return line[: it.start()] + chance.choice(NUMBERS) + line[it.end() :] if it else ""


def cut(line, chance):
    return line[: chance.randrange(len(line) + 1)]


def without_part(line, chance):
    begin, end = sorted(chance.randrange(len(line) + 1) for _ in range(2))
    return line[:begin] + line[end:]


def twice_part(line, chance):
    begin, end = sorted(chance.randrange(len(line) + 1) for _ in range(2))
    return line[:end] + line[begin:]


def argument(line, chance):
    """Without an argument, with one twice, or with one that lies deep in brackets."""
    words = line.split(", ")
    at = chance.randrange(len(words))
    return ", ".join(words[:at] + chance.choice([[], [words[at]] * 2, ["[" * 3000 + "]" * 3000]]) + words[at + 1 :])


def noise(_, chance):
    return "".join(chance.choice(SIGNS) for _ in range(chance.randrange(60)))


WAYS = [changed_sign, changed_sign, changed_number, changed_number, cut, without_part, twice_part, argument, noise]


def told_of(program, text):
    """What ipcsh_trace says of a trace, by the number of the line. The last line, which counts, is made too."""
    given = main.words([])
    records = lines.numbered(lines.records_of("", text.encode("utf-8", "surrogateescape"), None))
    plan, run = main.run_of(program, records, *main.opening_of(given), main.LIMITS, main.Progress(given))
    main.check_whole(program.path, run)
    told = {}
    for line in main.verdict_lines(plan, run):
        found = TOLD.match(line)
        if found:
            told.setdefault(int(found[1]), []).append(line)
    main.last_line(plan, run)
    return told


def verdict_of(told):
    """The verdict that one line has, without what is in parentheses."""
    found = [it[0] for it in map(VERDICT.search, told) if it]
    return found[0] if len(found) == 1 else f"{len(found)} verdicts"


def wrong_of(before, after, at, kept):
    """What is wrong with what is told of a trace whose line `at` is damaged; None where nothing is. The verdict of some lines is kept."""
    for line, told in before.items():
        if line == at or not any(map(VERDICT.search, told)):
            continue
        if line not in after:
            return f"line {line} is told nothing"
        if line in kept and verdict_of(told) != verdict_of(after[line]):
            return f"of line {line} is told: {after[line]}"
    return None


def kept_before(content, at):
    """The lines of calls that have ended before the call on this line begins. What reads credentials is also of calls before it."""
    if any(f" {it}(" in content[at - 1] for it in creds.READERS):
        return set()
    pid, begin = content[at - 1].split(" ")[0], at
    if "resumed>" in content[at - 1]:
        begin = max(it for it in range(1, at) if content[it - 1].startswith(f"{pid} "))
    return {it for it, line in enumerate(content[: begin - 1], 1) if "<unfinished" not in line and " = ?" not in line}


class Traces:
    """The traces that are damaged, each with what is told of it when it is whole."""

    def __init__(self, program, paths):
        self.program, self.whole = program, []
        for path in paths:
            content, witness = with_witness(pathlib.Path(path).read_text().rstrip("\n").split("\n"))
            self.whole.append((path, content, set(witness), told_of(program, "\n".join(content))))

    def damage(self, chance):
        """Damages one line of one trace, and says what is wrong then; None where nothing is."""
        path, content, witness, before = chance.choice(self.whole)
        at = chance.choice([it for it in range(1, len(content) + 1) if it not in witness])
        line = chance.choice(WAYS)(content[at - 1], chance)
        text = "\n".join(content[: at - 1] + [line] + content[at:])
        try:
            after = told_of(self.program, text)
        except Exception as why:  # whatever it is, it would be a traceback, or a status that isn't 0 or 1
            return f"{path}, line {at} as {line[:300]!a}: {type(why).__name__}: {why}"
        wrong = wrong_of(before, after, at, witness | kept_before(content, at))
        return f"{path}, line {at} as {line[:300]!a}: {wrong}" if wrong else None


def run(path, seed, count, paths):
    chance, traces, failed = random.Random(int(seed)), Traces(sessions.Program(path), paths), 0
    for _ in range(int(count)):
        wrong = traces.damage(chance)
        if wrong:
            failed += 1
            print(f"FAILED {wrong}")
    print(f"{int(count) - failed} passed, {failed} failed")
    return 1 if failed else 0


if __name__ == "__main__":
    sys.exit(run(sys.argv[1], sys.argv[2], sys.argv[3], sys.argv[4:]))
