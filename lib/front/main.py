"""ipcsh COMMAND: hands the words of a command to what does it."""

import os
import pathlib
import signal
import sys

LIB = pathlib.Path(__file__).resolve().parent.parent
sys.path += [str(LIB), str(LIB / "fmt")]

import commands
import style
import words
from choosing import NotBuilt
from programs import Fault, carried_out, complain, say


def tell_help(_, names):
    words.count(names, 0, 1, "a COMMAND or nothing")
    say((words.help_of(known(names[0])) if names else list_of_commands()).encode())
    return 0


# Each command: what it does, and whose version it has. lib/front/help has its words and a sentence.
COMMANDS = {
    "run": (commands.run, "ipcsh"),
    "explain": (commands.explain, "ipcsh_explain"),
    "why": (commands.why, "ipcsh_explain"),
    "who": (commands.who, "ipcwho"),
    "orphans": (commands.orphans, "ipcwho"),
    "exec": (commands.execute, "ipcsh"),
    "record": (commands.record, "ipcsh"),
    "trace": (commands.trace, "ipcsh"),
    "journal": (commands.journal, "ipcsh_journal"),
    "replay": (commands.replay, "ipcsh_journal"),
    "rule": (commands.rule, "ipcsh"),
    "fmt": (commands.fmt, "ipcsh_fmt"),
    "prompt": (commands.prompt, "ipcsh"),
    "help": (tell_help, "ipcsh"),
}
LIST = """usage: ipcsh COMMAND [WORD..]
       ipcsh [threads] < script

{}

`ipcsh help COMMAND` and `ipcsh COMMAND --help` tell more. KIND is queue, set
or segment; msg, sem or shm; or q, s or m. --color=WHEN is auto, always or
never; NO_COLOR counts. The status is 0, 1 where the answer is no, 2 for what
can't be read or written, 3 for a word that isn't taken, and 70: not built.
"""


def list_of_commands():
    sentences = {name: words.help_of(name).split("\n\n")[1].strip() for name in COMMANDS}
    return LIST.format("\n".join(f"  {name:8} {it}" for name, it in sentences.items()))


def known(name):
    """The name of a command; a file's name is no such."""
    if name in COMMANDS:
        return name
    if os.path.isfile(name):
        raise words.Usage(f"'{name}' is no command; ipcsh run {name} runs this script")
    raise words.unknown(name, "command", [*COMMANDS, "threads"], "ipcsh help lists them")


def carry_out(name, given):
    does, versioned = COMMANDS[name]
    try:
        options, others = words.split(name, given, name in ("exec", "record"))
        return does(style.taken(options, name), others)
    except words.Asked as word:
        if str(word) in ("-h", "--help"):
            return tell_help(None, [name])
        return carried_out(versioned, ["--version"])


def main():
    signal.signal(signal.SIGINT, signal.SIG_DFL)
    name, *given = sys.argv[1:]
    try:
        return carry_out(known(name), given)
    except NotBuilt as why:
        return why.status
    except (words.Usage, Fault) as why:
        complain(name if name in COMMANDS else "", why)
        return why.status


if __name__ == "__main__":
    sys.exit(main())
