"""The prompt: lines in the language for people, each of which is answered at once. `ipcsh help prompt` says how it is begun."""

import pathlib
import signal
import sys

LIB = pathlib.Path(__file__).resolve().parent.parent
sys.path += [str(LIB), str(LIB / "fmt"), str(LIB / "front")]

import commands
import editor
from choosing import NotBuilt, chosen
from programs import TOP, Fault, complain, end_by, say
from words import Usage
from running import text_of
from session import Session
from streams import lines_in
from style import STYLE


def is_terminal():
    return sys.stdin is not None and sys.stdin.isatty() and sys.stdout is not None and sys.stdout.isatty()


def tell(lines):
    say("".join(f"{it}\n" for it in lines).encode("utf-8", "surrogateescape"))


def typed(session):
    """The lines that are typed at a terminal, up to Control-D. Control-C gives up a line."""
    tell([f"ipcsh {(TOP / 'VERSION').read_text().strip()}: help lists what can be typed, Control-D ends"])
    sys.stdin.reconfigure(errors="surrogateescape")
    editor.begin(session)
    while True:
        try:
            line = input(session.prompt())
            editor.keep()
        except KeyboardInterrupt:
            tell([""])
            continue
        except EOFError:
            tell([""])
            return
        yield line


def piped(session):
    """The lines of standard input where that is no terminal, each shown after the prompt."""
    for line in lines_in():
        text = text_of(line).rstrip("\r\n")
        tell([session.prompt() + text])
        yield text


def answered(session, line):
    """What is said of a line."""
    if not line:
        return []
    try:
        return commands.carry_out(session, line) if commands.is_command(line) else session.take(line)
    except (Usage, Fault) as why:
        return str(why).splitlines()


def converse(session):
    for line in typed(session) if is_terminal() else piped(session):
        try:
            tell(answered(session, line.strip()))
        except KeyboardInterrupt:
            if not is_terminal():
                raise
            tell([""])


def main():
    # Of ipcsh prompt, which has read these.
    STYLE.text, STYLE.color = "--text" in sys.argv, "--color" in sys.argv
    try:
        chosen("ipcsh")
        converse(Session())
    except commands.Quit:
        return 0
    except KeyboardInterrupt:
        end_by(signal.SIGINT)
    except OSError as why:
        complain("prompt", f"standard input: {why.strerror}")
        return 2
    except NotBuilt as why:
        return why.status
    except Fault as why:
        complain("prompt", why)
        return why.status
    return 0


if __name__ == "__main__":
    sys.exit(main())
