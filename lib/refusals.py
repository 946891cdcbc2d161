"""Random calls on objects of random owners and modes. Of each that is refused for rights, explain names at least one change; each of these, made in the
script, lets the call be granted.

    refusals.py EXPLAIN PROGRAM [COUNT [SEED]]      COUNT refusals, 1,000 by default, by these programs
"""

import pathlib
import random
import re
import subprocess
import sys

LIB = pathlib.Path(__file__).resolve().parent
sys.path += [str(LIB), str(LIB / "fmt"), str(LIB / "front")]

import objects
import sorts

# Each script has that many callers, each with an object of its own.
CASES = 30
FIRST_KEY = 100
USERS, GROUPS = (0, 100, 200, 300), (10, 20, 30)
WANTED = "would be granted: "
GETS = {"q": "msgget {key} {flags}", "s": "semget {key} 1 {flags}", "m": "shmget {key} 64 {flags}"}
CALLS = {
    "q": ("msgsnd {id} 1 t:x 04000", "msgrcv {id} 8 0 04000", "stat q {id}", "rmid q {id}", "set q {id} 100 10 0600"),
    "s": ("semop {id} 0:0", "semop {id} 0:+1", "semop {id} 0:0 0:+1", "getval {id} 0", "setval {id} 0 1", "getall {id}", "stat s {id}", "rmid s {id}"),
    "m": ("shmat {id} 0", "shmat {id} 010000", "stat m {id}", "rmid m {id}", "set m {id} 100 10 0600"),
}


class Case:
    """A caller, an object, and a call of the one on the other."""

    def __init__(self, dice, number, kind, place):
        self.number, self.kind, self.id, self.key = number, kind, place, FIRST_KEY + number
        self.maker, self.caller = ([dice.choice(USERS), dice.choice(GROUPS)] for _ in range(2))
        self.owner = [dice.choice(USERS), dice.choice(GROUPS)] if dice.random() < 0.4 else self.maker
        self.others = dice.sample(GROUPS, dice.randrange(3))
        self.mode = dice.randrange(0o1000)
        self.flags = dice.choice((0o444, 0o222, 0o666, 0o600, 0o1666, dice.randrange(0o1000)))
        self.call = dice.choice(CALLS[kind] + (GETS[kind],))

    def clients(self, change=""):
        """The lines of the two clients, with this change of the caller."""
        user, group = self.caller
        kind, _, number = change.rpartition(" ")
        user, group = number if kind == "as user" else user, number if kind == "as group" else group
        groups = f" groups={','.join(map(str, self.others))}" if self.others else ""
        caps = f" caps={number.removeprefix('CAP_')}" if number.startswith("CAP_") else ""
        return [f"client m{self.number} {self.maker[0]} {self.maker[1]}", f"client c{self.number} {user} {group}{groups}{caps}"]

    def making(self):
        """The calls that make the object, and put a message into a queue."""
        made = [f"m{self.number} " + GETS[self.kind].format(key=self.key, flags=f"01{self.mode:03o}")]
        made += [self.setting(f"0{self.mode:03o}")]
        return made + ([f"root msgsnd {self.id} 1 t:x 0"] if self.kind == "q" else [])

    def setting(self, mode):
        return f"root set {self.kind} {self.id} {self.owner[0]} {self.owner[1]} {mode}"

    def calling(self, change=""):
        """The call, with this change of it or of the object."""
        before = [self.setting(change.removeprefix("with mode "))] if change.startswith("with mode ") else []
        flags = sorts.named_flags(change.removeprefix("with flags "), 32) if change.startswith("with flags ") else f"0{self.flags:o}"
        call = self.call.format(key=self.key, id=self.id, flags=flags)
        if change == "with SHM_RDONLY":
            call = f"shmat {self.id} 010000"
        return [*before, f"c{self.number} {call}"]


def cases(dice):
    """Those of a script. Identifiers of a kind count from 0."""
    places = dict.fromkeys("qsm", -1)
    for number in range(CASES):
        kind = dice.choice("qsm")
        places[kind] += 1
        yield Case(dice, number, kind, places[kind])


def script_of(found, changes):
    """The script of these cases with their changes, and the number of the line of each case's call."""
    lines = ["limit slots 64", "client root 0 0 caps=IPC_OWNER,SYS_ADMIN"]
    lines += [line for case, change in zip(found, changes) for line in case.clients(change)]
    lines += [line for case in found for line in case.making()]
    places = []
    for case, change in zip(found, changes):
        lines += case.calling(change)
        places.append(len(lines))
    return "".join(f"{it}\n" for it in lines), places


def printed(program, text):
    it = subprocess.run([program], input=text.encode(), stdout=subprocess.PIPE, stderr=subprocess.PIPE, check=False)
    if it.returncode:
        sys.exit(f"status {it.returncode} of the script\n{text}{it.stderr.decode()}")
    return it.stdout


def rows_of(program, text):
    """What explain prints, by the line of the script."""
    return {it["line"]: it for it in objects.notes(printed(program, text).splitlines(keepends=True)) if "line" in it}


def changes_of(row):
    """The changes that are named of a refusal for rights; None for another row."""
    if row.get("error") not in ("EACCES", "EPERM"):
        return None
    named = [it.removeprefix(WANTED).split(", ") for it in row.get("notes", []) if it.startswith(WANTED)]
    return named[0] if len(named) == 1 else []


def is_granted(rows, text, line):
    """The call of a line is granted: its event is the one of its number among the calls."""
    lines = text.split("\n")
    event = sum(not re.match("client |limit ", it) for it in lines[:line])
    row = next(it for it in rows if it.startswith(f"{event}.0 "))
    return " error " not in row


def tried(programs, found):
    """How many of these calls are refused for rights, and how many changes were made; a text of what isn't so ends the run."""
    explain, program = programs
    text, places = script_of(found, [""] * len(found))
    told = rows_of(explain, text)
    refused = [(case, changes_of(told[place]), told[place]) for case, place in zip(found, places) if changes_of(told[place]) is not None]
    for case, named, row in refused:
        if not named:
            sys.exit(f"no change is named: {row}\n{text}")
    for turn in range(max((len(named) for _, named, _ in refused), default=0)):
        changes = {case: named[turn] for case, named, _ in refused if turn < len(named)}
        text, places = script_of(found, [changes.get(case, "") for case in found])
        rows = printed(program, text).decode().split("\n")
        for case, place in zip(found, places):
            if case in changes and not is_granted(rows, text, place):
                sys.exit(f"'{changes[case]}' doesn't let line {place} be granted\n{text}")
    return len(refused), sum(len(named) for _, named, _ in refused)


def main(explain, program, count="1000", seed="1"):
    dice, refused, made = random.Random(int(seed)), 0, 0
    while refused < int(count):
        more, changes = tried((explain, program), list(cases(dice)))
        refused, made = refused + more, made + changes
    print(f"{refused} refusals, {made} changes, each granted")


if __name__ == "__main__":
    main(*sys.argv[1:])
