"""Tries ipcsh_journal on random scripts: the journal of each is replayed as it was written, and once more with a row changed.

    journal.py random PROGRAM SEED COUNT    so many scripts, from this seed on
    journal.py broken PROGRAM JOURNAL LIST  each edit of a journal that LIST has, and what is told of it

Where a changed journal first differs is found in another way: its calls are run as a script, whose journal is compared with it.
The last line counts.
"""

import multiprocessing
import pathlib
import random
import re
import subprocess
import sys

import kernel

CALL = re.compile(r"at (\d+) client (\d+): (.*)")
CLIENT = re.compile(r"client (\d+): (effective .*)")
CREDS = re.compile(r"effective (\d+):(\d+) real \1:\2 saved (\d+):(\d+) groups (\S+) caps \d+(?:,(\S+))?")
# Where a changed number would make no script: a script has no real user and group of their own, names capabilities, and has texts of whole bytes.
FIXED = re.compile(r"effective \S+ real \S+|caps \S+|x:\S*")
ANSWER = re.compile(r"(  )(\d+)(\.)(\d+)( client )(\d+)(: )(.*)")
DIFFERS = re.compile(r"line (\d+), row (\d+): the journal differs")
LIMITS = ["slots 3", "queues 2", "sets 1", "segments 2", "first-seq 65534", "msgmax 20", "msgmnb 40", "semmsl 2", "semopm 2", "shmmax 16"]


def run(program, text, *words):
    """The status, output and standard error of a run."""
    ran = subprocess.run([program, *words], input=text.encode(), stdout=subprocess.PIPE, stderr=subprocess.PIPE, timeout=60)
    return ran.returncode, ran.stdout.decode(), ran.stderr.decode()


def any_line(dice):
    """A line of a kind that the scripts for the kernel don't have."""
    name, ident = dice.choice(kernel.NAMES), dice.choice("0001")
    return dice.choice([
        f"clock {dice.randrange(40)}",
        f"{name} semtimedop {ident} {dice.randrange(9)} 0:{dice.choice(['-3', '-1', '0', '1'])} 1:1:010000",
        f"{name} setcreds {dice.choice('123')}00 {dice.choice('123')}0 groups={dice.choice(['-', '10', '10,20', '4,4,4'])}",
        f"{name} interrupt {dice.randrange(1, 7)}",
        f"{name} set q {ident} 100 10 0666 {dice.choice(['10', '50000'])}",
        f"{name} set {dice.choice('sm')} {ident} 200 20 0666",
        f"{name} msgsnd {ident} {dice.choice(['-1', '0', '7', '7', '7'])} {dice.choice(['x:00ff7f', 't:' + 'y' * 19])} 0",
        f"{name} setval {ident} 0 {dice.choice(['-1', '32768'])}",
        f"{name} ipcrm -q {ident} -M 6",
        f"{name} {dice.choice(['exit', 'begin 7 100 10', 'begin 8 200 20'])}",
        f"{name} {kernel.any_process_call(dice, ident)}",
        f"{name} {dice.choice(['begin 0 100 10', f'fork {dice.choice(kernel.NAMES)} 0'])}",
        f"{name} name {dice.randrange(12)}",
        f"{name} interrupt {dice.choice(kernel.NAMES)}",
        f"{name} assume {dice.choice('123')}00 {dice.choice('123')}0 groups=10,20 caps=SYS_ADMIN saved=100:10",
    ])


def any_attachment(dice):
    """A client attaches a segment, and makes a call of what it has attached."""
    name, number = dice.choice(kernel.NAMES), dice.choice("0001")
    call = dice.choice([f"shmdt {number}", f"shmread {number} 0 {dice.randrange(20)}", f"shmwrite {number} 4 t:abcd"])
    return [f"{name} shmat {dice.choice('0001')} {dice.choice(['0', '0', '010000'])}", f"{name} {call}"]


def any_script(dice):
    """A script of all kinds of calls, with limits, times and waits that end by them."""
    lines = kernel.any_script(dice).decode().splitlines()
    head = len(kernel.HEAD.splitlines())
    for _ in range(16):
        at = dice.randrange(head, len(lines))
        lines[at:at] = dice.choice([kernel.any_life, any_attachment] + [lambda dice: [any_line(dice)]] * 8)(dice)
    return "".join(f"{it}\n" for it in [f"limit {it}" for it in LIMITS if dice.random() < 0.15] + lines)


def words_of(creds):
    """The words of a script for credentials of a journal."""
    user, group, suid, sgid, groups, caps = CREDS.fullmatch(creds).groups()
    options = [f"groups={groups}"] * (groups != "-") + [f"caps={caps}"] * bool(caps) + [f"saved={suid}:{sgid}"]
    return f"{user} {group} {' '.join(options)}"


def call_of(text):
    """The words of a script for a call of a journal."""
    handed = re.fullmatch(r"(.*): (effective .*)", text)
    return f"{handed[1]} {words_of(handed[2])}" if handed else re.sub(r"client:(\d+)", r"c\1", text)


def script_of(lines):
    """The script that makes the calls of a journal."""
    head = next(at for at, it in enumerate(lines) if CLIENT.fullmatch(it))
    script = lines[1:head]
    for line in lines[head:]:
        client, call = CLIENT.fullmatch(line), CALL.fullmatch(line)
        if client:
            script.append(f"client c{client[1]} {words_of(client[2])}")
        elif call:
            script += [f"clock {call[1]}", f"c{call[2]} {call_of(call[3])}"]
    return "".join(f"{it}\n" for it in script)


def first_difference(lines, others):
    """The first line, from 1, in which two texts differ; None where they are alike."""
    for number, (line, other) in enumerate(zip(lines, others), 1):
        if line != other:
            return number
    return None if len(lines) == len(others) else min(len(lines), len(others)) + 1


def changed_answer(dice, line):
    parts = list(ANSWER.fullmatch(line).groups())
    part = dice.choice([1, 3, 5, 7])
    if part == 7:
        parts[7] = dice.choice(["granted", "error 13 EACCES other-bits", "error 11 EAGAIN timed-out", "error 43 EIDRM removed"])
    else:
        parts[part] = str(int(parts[part]) + dice.choice([1, 2, 60]))
    return "".join(parts)


def changed_call(dice, line):
    """Another number, but none that is written in octal or hexadecimal."""
    fixed = [it.span() for it in FIXED.finditer(line)]
    numbers = [it for it in re.finditer(r"(?<![\w.,])(?:0|[1-9]\d*)(?!\w)", line) if not any(begin < it.start() < end for begin, end in fixed)]
    it = dice.choice(numbers)
    number = int(it[0]) + dice.choice([1, 1, 2, 60])
    # A script names a client by its name, and can't name one that there isn't.
    if line[: it.start()].endswith("client:"):
        number %= len(kernel.NAMES)
    return f"{line[: it.start()]}{number}{line[it.end() :]}"


def changed(dice, lines):
    """The lines of a journal with one row changed, left out or doubled."""
    first = next(at for at, it in enumerate(lines) if CALL.fullmatch(it))
    at = dice.randrange(first, len(lines))
    way = dice.random()
    if way < 0.1:
        return lines[:at] + lines[at + 1 :]
    if way < 0.2:
        return lines[: at + 1] + lines[at:]
    change = changed_call if CALL.fullmatch(lines[at]) else changed_answer
    return lines[:at] + [change(dice, lines[at])] + lines[at + 1 :]


def why_wrong(program, dice):
    """Why a random script isn't recorded and replayed as it must be; None where it is. And whether its changed journal differs."""
    script = any_script(dice)
    status, text, told = run(program, script)
    if status not in (0, 1) or not text:
        return f"status {status}: {told}", False
    if run(program, text, "--replay") != (0, "same\n", ""):
        return "its journal isn't the same", False
    others = changed(dice, text.splitlines())
    wanted = first_difference(others, run(program, script_of(others))[1].splitlines())
    status, output, told = run(program, "".join(f"{it}\n" for it in others), "--replay")
    told_at = DIFFERS.match(output)
    found = int(told_at[1]) if told_at else None
    if status != (0 if wanted is None else 1) or found != wanted or (wanted is None) != (output == "same\n"):
        return f"line {wanted} is the first to differ, and this is told: {output}{told}", False
    return None, wanted is not None


def random_task(task):
    program, seed = task
    why, differs = why_wrong(program, random.Random(seed))
    return f"FAILED seed {seed}: {why}" if why else "", differs


def random_scripts(program, seed, count):
    tasks = [(program, int(seed) + it) for it in range(int(count))]
    with multiprocessing.Pool() as pool:
        found = pool.map(random_task, tasks, chunksize=8)
    failed = [it for it, _ in found if it]
    print("".join(f"{it}\n" for it in failed[:10]), end="")
    print(f"{sum(it for _, it in found)} of the changed journals differ, and the others are journals")
    print(f"{len(tasks) - len(failed)} passed, {len(failed)} failed")
    return 1 if failed else 0


def broken(program, journal, edits):
    """Each edit is two lines: the expression of sed(1) that makes it, and what is told of the text."""
    lines = pathlib.Path(edits).read_text(encoding="utf-8").splitlines()
    pairs, failed = list(zip(lines[::2], lines[1::2])), 0
    for expression, wanted in pairs:
        text = subprocess.run(["sed", "-E", expression, journal], stdout=subprocess.PIPE, check=True).stdout
        ran = subprocess.run([program, "--replay"], input=text, stdout=subprocess.PIPE, stderr=subprocess.PIPE, timeout=60)
        told = ran.stderr.decode().rstrip("\n")
        if (ran.returncode, ran.stdout, told) != (2, b"", f"ipcsh_journal: standard input: {wanted}"):
            print(f"FAILED {expression}: status {ran.returncode}: {told}")
            failed += 1
    print(f"{len(pairs) - failed} passed, {failed} failed")
    return 1 if failed else 0


def main(part, *words):
    return {"random": random_scripts, "broken": broken}[part](*words)


if __name__ == "__main__":
    if len(sys.argv) != 5:
        sys.exit(__doc__)
    sys.exit(main(*sys.argv[1:]))
