"""What each word after `:` does, given the session and what follows the word. It gives the lines that are said."""

import json
import os

import calls
from choosing import chosen
from programs import Fault
from words import Usage, count, unknown
from running import heard, lines_of, plainly, text_of



class Quit(Exception):
    """The session ends."""


def carried_out(session, words, is_explained=True):
    """What a command of ./ipcsh says of the session's script."""
    if is_explained:
        chosen("ipcsh_explain")
    rows, said, status = heard(words, session.now.text())
    if status and said:
        raise Fault(plainly(said).rstrip(), status)
    return lines_of(rows)


def why(session, line):
    number = line or session.now.last_call()
    if not number:
        raise Usage("there is no call yet")
    return carried_out(session, ["why", "--", "-", str(number)])


def who(session, words):
    if words:
        return carried_out(session, ["who", "--script", "-", "--", *words.split()])
    found = [json.loads(it) for it in carried_out(session, ["explain", "--json", "-"])]
    return [note.removeprefix("at the end ") for it in found for note in it.get("end", [])] or ["nobody waits"]


def listed(session, words):
    none(words)
    lines = lines_of(text_of(session.now.text()))
    return [f"{number:>4}  {it}" for number, it in enumerate(lines, 1)]


def undo(session, words):
    none(words)
    line = session.undo()
    if line is None:
        raise Usage("there is no line to undo")
    return [f"undone: {line}"]


def save(session, file):
    return saved(session, file, "xb")


def save_over(session, file):
    return saved(session, file, "wb")


def saved(session, file, mode):
    """Writes the exact script to a file."""
    text = session.now.text()
    try:
        with open(named(file), mode) as it:
            it.write(text)
    except FileExistsError as why_not:
        raise Usage(f"{file}: it exists; :save! {file} overwrites it") from why_not
    except OSError as why_not:
        raise Usage(f"{file}: {why_not.strerror}") from why_not
    return [f"{file}: saved"]


def svg(session, file):
    carried_out(session, ["explain", f"--svg={named(file)}", "--", "-"])
    return [f"{file}: drawn"]


def named(file):
    if not file:
        raise Usage("it wants a FILE")
    return os.path.expanduser(file)


def rule(session, words):
    return carried_out(session, ["rule", "--", *words.split()], False)


def tell_help(_, words):
    if not words:
        return listing()
    word = words.lstrip(":")
    if word in COMMANDS:
        _, takes, about = COMMANDS[word]
        return [f":{word} {takes}".rstrip() + f": {about}"]
    return calls.told(words)


def leave(_, words):
    none(words)
    raise Quit


def none(words):
    count(words.split(), 0, 0, "no word")


# Each word: what it does, what follows it, and a sentence.
COMMANDS = {
    "why": (why, "[LINE]", "why a line is answered so, by default the last call"),
    "who": (who, "[KIND ID]", "who waits, or who may do what to an object"),
    "list": (listed, "", "the script so far, in the exact language, by line"),
    "undo": (undo, "", "removes the last line that was taken"),
    "save": (save, "FILE", "writes the script to a new file"),
    "save!": (save_over, "FILE", "writes the script, and overwrites a file"),
    "svg": (svg, "FILE", "draws the run, over no file but a picture"),
    "rule": (rule, "[NAME]", "a rule with its source, or all of them"),
    "help": (tell_help, "[CALL]", "this list, or more of a call"),
    "quit": (leave, "", "ends the session, as Control-D does"),
}
# Those that are also read without `:`.
BARE = ("help", "quit")


def listing():
    rows = [f"  {f':{name} {takes}':16} {about}" for name, (_, takes, about) in COMMANDS.items()]
    return ["client NAME USER GROUP is a process, and NAME CALL .. a call of it:", *calls.listing(), "", *rows]


def is_command(line):
    """It is for the prompt, and not for the language."""
    words = line.split()
    return line[:1] == ":" or words[0] in BARE and len(words) <= (2 if words[0] == "help" else 1)


def carry_out(session, line):
    """Does what a line says that is for the prompt."""
    if "\0" in line:
        raise Usage("a line has no byte 0")
    word, rest = (*line.lstrip(":").split(None, 1), "", "")[:2]
    if word not in COMMANDS:
        raise unknown(f":{word}", "command", [f":{it}" for it in COMMANDS], ":help lists them")
    return COMMANDS[word][0](session, rest)
