"""Runs the programs behind the commands, and writes what the front itself says."""

import contextlib
import os
import pathlib
import re
import signal
import stat
import subprocess
import sys
import tempfile
import threading

from choosing import chosen
from easy import Reading
from streams import read_in, write_error, write_out
from style import STYLE
from waiting import Waiting

TOP = pathlib.Path(__file__).resolve().parent.parent.parent
NOT_BUILT = 70
# How messages begin that are of a script and not of the program.
OF_SCRIPT = re.compile(r"^(\w+: )(?:standard input: )?(?=line [0-9]|'|read failed|input too long|the script |at the end |bad lines )")


class Fault(Exception):
    """What can't be read, written or found. It has a text and a status."""

    def __init__(self, text, status=2):
        super().__init__(text)
        self.status = status


def complain(command, text):
    write_error(f"ipcsh {command}".rstrip() + f": {text}\n")


def say(text):
    """Writes bytes to standard output, as the style has it. Where its reader has gone this ends the front in silence."""
    say_parts([text] if STYLE.is_plain() else STYLE.dressed(text.splitlines(keepends=True)))


def say_objects(found):
    """The same with an object of JSON a line."""
    say_parts(map(STYLE.json, found))


def say_parts(parts):
    for part in parts:
        if not write_out(part):
            if has_reader():
                end_by(signal.SIGPIPE)
            raise Fault("write failed")


def read(file):
    """The bytes of a script."""
    try:
        return read_in() if file == "-" else pathlib.Path(file).read_bytes()
    except OSError as why:
        raise Fault(f"{shown(file)}: {why.strerror}") from why


def shown(file):
    return "standard input" if file == "-" else file


def become(program, words):
    """This process becomes the program."""
    signal.signal(signal.SIGPIPE, signal.SIG_DFL)
    os.execv(TOP / program, [program, *words])


def answer(program, words, script=b"", is_quiet=False):
    """The bytes that the program prints of a script, and its status. A fault of it ends the front."""
    chosen(program)
    it = subprocess.run([TOP / program, *words], input=script, stdout=subprocess.PIPE, stderr=subprocess.DEVNULL if is_quiet else None, check=False)
    if ended(it.returncode) > 1:
        sys.exit(it.returncode)
    return it.stdout, it.returncode


def carried_out(program, words, script=None, name=None, reading=None, waiting=None):
    """The status of the program, whose standard input is the script where one is given; messages of that get this name. Where it comes of a reading,
    what is told of its lines does too. `waiting` sees the rows."""
    is_handed_on = has_reader() or reading or waiting or not STYLE.is_plain()
    is_told = name or reading
    pipe = subprocess.PIPE
    child = subprocess.Popen([TOP / program, *words], stdin=script, stdout=pipe if is_handed_on else None, stderr=pipe if is_told else None)
    for it in (signal.SIGINT, signal.SIGTERM, signal.SIGHUP):
        signal.signal(it, lambda number, _: child.send_signal(number))
    teller = threading.Thread(target=tell, args=(child.stderr or (), name, reading), daemon=True)
    teller.start()
    taken = not child.stdout or hand_on(child.stdout, reading, waiting)
    if not taken:
        child.kill()
    status = child.wait()
    teller.join()
    if not taken:
        unwritten(program)
    return ended(status)


def unwritten(program):
    """Output couldn't be written: in silence where its reader has gone, and else as the programs say it."""
    if has_reader():
        end_by(signal.SIGPIPE)
    write_error(f"{program}: write failed\n")
    sys.exit(2)


def has_reader():
    """Standard output is read by someone, who may go."""
    with contextlib.suppress(OSError):
        mode = os.fstat(1).st_mode
        return stat.S_ISFIFO(mode) or stat.S_ISSOCK(mode)
    return False


def hand_on(rows, reading, waiting):
    """Writes rows to standard output as they come; False where they aren't taken."""
    return all(map(write_out, parts_of(rows, reading, waiting)))


def parts_of(rows, reading, waiting):
    """What is written of these rows."""
    is_whole = STYLE.is_plain() and not reading
    parts = iter(lambda: os.read(rows.fileno(), 65536), b"") if is_whole else rows
    parts = waiting.seen(parts) if waiting else parts
    if is_whole:
        return parts
    return STYLE.dressed(filter(None, map(reading.row, parts)) if reading else parts)


def tell(messages, name, reading):
    """Copies messages to standard error as they come. One of a script gets the script's name."""
    for line in messages:
        told = line.decode("utf-8", "surrogateescape")
        if reading:
            told = reading.message(told)
        if name:
            told = OF_SCRIPT.sub(lambda it: f"{it[1]}{name}: ", told)
        write_error(told)


def ended(status):
    """The status of a program that has ended; the front ends by the signal that has ended it."""
    if status < 0:
        end_by(-status)
    return status


def end_by(number):
    """Ends as by this signal."""
    signal.signal(number, signal.SIG_DFL)
    os.kill(os.getpid(), number)


def each(command, program, words, files, is_easy=False, tells_waits=False):
    """Runs the program on each script in turn, and gives the highest status. Of one that can't be read it tells, and goes on. An easy one is
    made exact first. At the end it tells who waits, where that is asked for."""
    runs = Runs(command, program, words, is_easy, len(files) > 1, tells_waits)
    if len(files) > 1:
        chosen(program)
    worst = 0
    for file in files or ["-"]:
        worst = max(worst, runs.on(file))
        if worst >= NOT_BUILT:
            break
    return worst


def opened(file):
    try:
        return open(file, "rb")
    except OSError as why:
        raise Fault(f"{file}: {why.strerror}") from why


class Runs:
    """Runs of a program on one script after another."""

    def __init__(self, command, program, words, is_easy, are_several, tells_waits):
        self.command, self.program, self.words, self.is_easy, self.are_several = command, program, words, is_easy, are_several
        self.tells_waits, self.is_first = tells_waits, True

    def on(self, file):
        """The status of a run."""
        waiting = Waiting() if self.tells_waits else None
        try:
            status = self.on_easy(file, waiting) if self.is_easy else self.on_exact(file, waiting)
        except Fault as why:
            complain(self.command, why)
            return why.status
        for told in waiting.told() if waiting else ():
            complain(self.command, f"{shown(file)}: {told}")
        return status

    def on_exact(self, file, waiting):
        """That of a run on a file as it is."""
        if file == "-":
            self.begin(file)
            return carried_out(self.program, self.words, waiting=waiting)
        with opened(file) as script:
            self.begin(file)
            return carried_out(self.program, self.words, script, file, waiting=waiting)

    def on_easy(self, file, waiting):
        """That of a run on the exact script of a file."""
        reading = Reading(read(file))
        self.begin(file)
        for fault in reading.faults():
            complain(self.command, f"{shown(file)}: {fault}")
        with tempfile.TemporaryFile() as script:
            script.write(reading.text)
            script.seek(0)
            return carried_out(self.program, self.words, script, None if file == "-" else file, None if reading.is_same else reading, waiting)

    def begin(self, file):
        """What is printed next is of this file: where there are several, objects of JSON have its name, and else a heading has."""
        if not self.are_several:
            return
        if STYLE.objects:
            STYLE.head = {"file": shown(file)}
        else:
            say(b"%s==> %s <==\n" % (b"" if self.is_first else b"\n", os.fsencode(shown(file))))
        self.is_first = False
