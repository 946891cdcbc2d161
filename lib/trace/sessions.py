"""Runs of the program ./ipcsh, which is given lines and answers their rows."""

import contextlib
import os
import subprocess
import threading

# A line that the program answers without an event: so all rows of the line before it are read.
MARK = "?"
# From so many lines on a process is brought to a place before it is asked for, as many at a time as there are processors to spare.
LONG = 200
SPARES = max(1, min(4, (os.cpu_count() or 1) - 1))
# What a pipe takes at once in any case.
SHORT = 4096


class Stopped(Exception):
    """The program can't be run, or has ended; its text says why."""


class Program:
    """./ipcsh, and what it has answered so far: `known` has for each first line its rows and what is known of the lines after it. The program
    answers the same lines the same, so a run that begins as an earlier one asks it from the first other line on."""

    def __init__(self, path):
        self.path, self.known, self.spares = path, {}, []

    def prepare(self, lines):
        """Begins to bring a process behind these lines, as runs will go on from there."""
        self.keep(lambda it: it.lines == lines)
        if len(lines) >= LONG and len(self.spares) < SPARES:
            self.spares.append(Process(self.path, lines))

    def process(self, lines):
        """A process behind these lines."""
        self.keep(lambda it: len(it.lines) <= len(lines) and it.lines == lines[: len(it.lines)])
        found = self.spares.pop(0) if self.spares else Process(self.path, [])
        found.feed(lines[len(found.lines) :])
        return found

    def keep(self, is_wanted):
        for it in self.spares:
            if not is_wanted(it):
                it.end()
        self.spares = [it for it in self.spares if not it.is_ended]

    def end(self):
        self.keep(lambda _: False)


class Process:
    """A process of the program, and the lines that it was given. The first are given to it by a thread of their own."""

    def __init__(self, path, lines):
        self.lines, self.count, self.failure, self.is_ended = list(lines), 0, None, False
        self.child = subprocess.Popen([path], stdin=subprocess.PIPE, stdout=subprocess.PIPE, stderr=subprocess.DEVNULL)
        self.feeder = threading.Thread(target=self.skip, args=(self.lines,), daemon=True)
        self.feeder.start()

    def feed(self, lines):
        """Gives it these lines too, whose rows are known."""
        self.feeder.join()
        if self.failure:
            raise self.failure
        self.lines += lines
        self.skip(lines)

    def skip(self, lines):
        """Its rows for these lines aren't looked at."""
        if not lines:
            return
        try:
            self.write([*lines, MARK])
            self.count += len(lines) + 1
            end = f"line {self.count}: ".encode()
            while not self.row().startswith(end):
                pass
        except (OSError, Stopped) as why:
            self.failure = why if isinstance(why, Stopped) else Stopped(str(why))

    def answer(self, line):
        """The rows of a line."""
        self.feed([])
        self.lines.append(line)
        self.write([line, MARK])
        self.count += 2
        end, rows = f"line {self.count}: ".encode(), []
        while not rows or not rows[-1].startswith(end):
            rows.append(self.row())
        return [it.decode() for it in rows[:-1]]

    def write(self, lines):
        """Long text is written beside, as the program may wait until its rows are read."""
        text = "".join(f"{it}\n" for it in lines).encode()
        if len(text) <= SHORT:
            self.write_all(text)
        else:
            threading.Thread(target=self.write_all, args=(text,), daemon=True).start()

    def write_all(self, text):
        with contextlib.suppress(OSError, ValueError):
            self.child.stdin.write(text)
            self.child.stdin.flush()

    def row(self):
        row = self.child.stdout.readline()
        if not row.endswith(b"\n"):
            raise Stopped(f"ipcsh ended with status {self.child.wait()}; try ./ipcsh < examples/first-run.ipcsh")
        return row[:-1]

    def end(self):
        self.is_ended = True
        self.child.kill()
        self.feeder.join()
        with contextlib.suppress(OSError):
            self.child.stdin.close()
        self.child.stdout.close()
        self.child.wait()


class Session:
    """The lines of a run and their rows. It asks a process where they aren't known."""

    def __init__(self, program):
        self.program, self.known, self.lines, self.process = program, program.known, [], None

    def ask(self, line):
        """The rows of a line."""
        if line not in self.known:
            if self.process is None:
                self.process = self.program.process(self.lines)
            self.known[line] = (self.process.answer(line), {})
        rows, self.known = self.known[line]
        self.lines.append(line)
        return rows

    def place(self):
        return len(self.lines), self.known

    def back(self, place):
        """Forgets the lines behind a place."""
        count, self.known = place
        if count < len(self.lines):
            del self.lines[count:]
            self.end()
            self.program.prepare(self.lines)

    def end(self):
        if self.process:
            self.process.end()
            self.process = None
