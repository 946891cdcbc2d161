"""What each command does, given its options and its other words. It gives the status."""

import io
import os
import shutil
import sys

import live
import objects
import rules
from easy import Reading
from programs import TOP, Fault, answer, become, carried_out, each, read, say, say_objects, shown
from style import STYLE
from words import Usage, count, identifier, is_number, kind, only, pids, written


def run(options, files):
    asked = dict(options)
    is_by_threads = "--threads" in asked
    return each("run", "ipcsh", ["threads"] if is_by_threads else [], files, "--easy" in asked, not is_by_threads)


def explain(options, files):
    if options:
        count(files, 0, 1, "one script with --svg")
    words = [f"--svg={value}" for _, value in options]
    return each("explain", "ipcsh_explain", words, files, True)


def why(options, words):
    count(words, 2, 3, "FILE LINE or PID KIND ID")
    if len(words) == 2:
        only(options, None, "FILE LINE")
        return why_line(*words)
    STYLE.objects = STYLE.objects and objects.reasons
    return carried_out("ipcwho", [*written(options), "--why", *pids(words[:1]), kind(words[1]), identifier(words[2])])


def why_line(file, number):
    """Prints the rows of a line with their notes: those that the exact script has more with this line than before it."""
    if not is_number(number) or int(number) == 0:
        raise Usage(f"'{number}' is no line")
    text = read(file)
    lines, reading = lines_of(text), Reading(text)
    if int(number) > len(lines):
        raise Fault(f"{shown(file)}: it has no line {number}", 1)
    exact, last = lines_of(reading.text), reading.exact.last(int(number))
    rows = explained(exact)
    before, until = (len(explained(exact[:end], True)) for end in (last - 1, last))
    if before == until:
        raise Fault(f"{shown(file)}: line {number} makes no call", 1)
    told = b"".join(rows[before:until]).splitlines(keepends=True)
    say(b"".join(map(reading.row, told)))
    return 0


def lines_of(text):
    return io.BytesIO(text).readlines()


def explained(lines, is_quiet=False):
    """The rows of a script, each with the line above it and the notes below it."""
    found, above = [], b""
    for block in blocks(answer("ipcsh_explain", [], b"".join(lines), is_quiet)[0], b"    "):
        if block.startswith(b"> "):
            above += block
        else:
            found.append(above + block)
            above = b""
    return found


def blocks(text, indent):
    """The lines of a text, each with those below it that are indented so."""
    found = []
    for line in lines_of(text):
        if line.startswith(indent) and found:
            found[-1] += line
        else:
            found.append(line)
    return found


def who(options, words):
    script = dict(options).get("--script")
    if script is not None:
        only(options, "--script", "--script")
        count(words, 2, 2, "KIND ID")
        STYLE.objects = STYLE.objects and objects.rights
        return each("who", "ipcsh_explain", ["--who", kind(words[0]), identifier(words[1])], [script], True)
    if words and words[0].isdigit():
        only(options, "--proc", "PID..")
        return carried_out("ipcwho", [*written(options), *pids(words)])
    count(words, 0, 2, "KIND ID")
    name, number = kind(words[0]) if words else None, identifier(words[1]) if words[1:] else None
    return live.who(dict(options), name, number)


def orphans(options, words):
    return carried_out("ipcwho", [*written(options), "--orphans", *pids(words)])


def execute(options, words):
    if not words:
        raise Usage("it wants a PROGRAM")
    if options:
        empty(options[-1][1])
    become("ipcrun", [*(options[-1] if options else ["--"]), *words])


def empty(file):
    """Makes a file empty, or tells why it can't be written."""
    try:
        open(file, "wb").close()
    except OSError as why_not:
        raise Fault(f"{file}: {why_not.strerror}") from why_not


def record(options, words):
    if not words:
        raise Usage("it wants a PROGRAM")
    if not shutil.which(words[0]):
        is_there = "/" in words[0] and os.path.exists(words[0])
        raise Fault(f"'{words[0]}' is no program that can be run", 126) if is_there else Fault(f"there is no program '{words[0]}'", 127)
    return carried_out("ipcsh_trace", [*written(options), "--record", *words])


def trace(options, files):
    if "-" in files:
        count(files, 1, 1, "- alone")
        files = []
    return carried_out("ipcsh_trace", [*written(options), "--", *files])


def prompt(_, words):
    count(words, 0, 0, "no word")
    asked = [name for name, is_asked in (("--text", STYLE.text), ("--color", STYLE.color)) if is_asked]
    os.execv(sys.executable, [sys.executable, str(TOP / "lib/prompt/main.py"), *asked])


def journal(_, files):
    return each("journal", "ipcsh_journal", [], files)


def replay(_, files):
    return each("replay", "ipcsh_journal", ["--replay"], files)


def rule(options, words):
    if options:
        say_objects(map(rules.object_of, words or rules.all_names()))
        return 0
    text = "\n\n".join(map(rules.text_of, words)) if words else rules.list_text()
    say(f"{text}\n".encode())
    return 0


def fmt(options, files):
    return carried_out("ipcsh_fmt", [*written(options), "--", *files])
