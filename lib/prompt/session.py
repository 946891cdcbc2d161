"""What was typed so far, the exact script of it, and what the program prints of that."""

import collections
import re

import script
import sorts
from programs import Fault
from running import heard, lines_of, plainly, text_of

ROW = re.compile(r"[0-9]+\.[0-9]+ ([a-z0-9]+) (.*)")
BAD = re.compile(r"line [0-9]+: (.*)")
MOST_NAMES = 3


class Run:
    """These lines, as people write them, run as one script."""

    def __init__(self, typed):
        self.typed = typed
        self.lines = script.read("".join(f"{as_bytes(it)}\n" for it in typed))
        self.rows, self.hints = [], []

    def text(self):
        return script.exact(self.lines).encode("latin-1")

    def carry_out(self):
        rows, said, status = heard(["-"], self.text())
        if status > 1:
            raise Fault(plainly(said).strip() or f"the program has ended with status {status}", status)
        self.rows = lines_of(rows)
        self.hints = lines_of(plainly(said))

    def exact(self):
        """What the last line became."""
        return [as_text(it) for it in self.lines[-1].told]

    def faults(self):
        """What can't be read in the last line."""
        return [f"column {column}: {as_text(why)}" for column, why in self.lines[-1].faults]

    def reasons(self):
        """Why a line is bad, where one is."""
        return [it[1] for it in map(BAD.fullmatch, self.rows) if it]

    def clock(self):
        """The time that the last line of a clock gives."""
        given = [it.told[-1].split() for it in self.lines]
        return next((sorts.value(it[1]) for it in reversed(given) if it[:1] == ["clock"]), 0)

    def waiting(self):
        """The clients whose last row is that they wait, in the order in which they began to."""
        last = {}
        for it in filter(None, map(ROW.fullmatch, self.rows)):
            last.pop(it[1], None)
            last[it[1]] = it[2]
        return [name for name, answer in last.items() if answer == "waits"]

    def answers(self, word):
        """The numbers that were answered after this word, as `id`."""
        found = (it[2].split() for it in map(ROW.fullmatch, self.rows) if it)
        return sorted({it[1] for it in found if it[0] == word and len(it) == 2}, key=int)

    def clients(self):
        """The names of clients, as they were typed."""
        return [words[1] for words in map(str.split, self.typed) if words[:1] == ["client"]]

    def is_client(self, word):
        """It is the name of a client, as it was typed or as it is in the exact script."""
        return word in self.clients() or any(it.is_client and it.client == word for it in self.lines)

    def last_call(self):
        """The number in the exact script of the last line that is a call; 0 where none is."""
        number = found = 0
        for it in script.with_clients_first(self.lines):
            number += len(it.told)
            found = number if it.is_call else found
        return found


class Session:
    """The run of the lines that were taken so far."""

    def __init__(self):
        self.now = Run([])

    def prompt(self):
        names = self.now.waiting()
        more = f" and {len(names) - MOST_NAMES} more" if len(names) > MOST_NAMES else ""
        who = f" waiting: {', '.join(names[:MOST_NAMES])}{more}" if names else ""
        return f"t={self.now.clock()}{who}> "

    def take(self, line):
        """Runs the script with this line, which stays where it is good. What is said of it."""
        new = Run([*self.now.typed, line])
        if new.faults():
            return new.faults()
        new.carry_out()
        said = [f"= {it}" for it in new.exact()] if new.exact() != [line] else []
        hints = list((collections.Counter(new.hints) - collections.Counter(self.now.hints)).elements())
        if new.reasons():
            return said + (hints or new.reasons())
        said += hints + new_rows(self.now.rows, new.rows)
        self.now = new
        return said

    def undo(self):
        """Removes the last line that was taken, and gives it; None where there is none."""
        *before, last = self.now.typed or [None]
        new = Run(before)
        new.carry_out()
        self.now = new
        return last


def new_rows(old, new):
    """The rows that are new, and those that are others than before."""
    if new[: len(old)] == old:
        return new[len(old) :]
    same = next(at for at, it in enumerate(old) if new[at : at + 1] != [it])
    return ["with this line earlier rows change:", *new[same:]]


def as_bytes(text):
    """Each byte as a character, as lib/fmt reads a script."""
    return text.encode("utf-8", "surrogateescape").decode("latin-1")


def as_text(line):
    return text_of(line.encode("latin-1"))
