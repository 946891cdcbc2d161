"""How what a command prints is shown: as it is, with texts as text, in colours, or as JSON. It decides nothing."""

import json
import os
import re
import sys

import objects
from words import Usage

PLACE = rb"[0-9]+\.[0-9]+|-"
# The text of a message or of a segment's bytes in a row.
HEX = re.compile(rb"((?: *)[0-9]+\.[0-9]+ \w+ (?:message -?[0-9]+|bytes) )x:((?:[0-9a-f]{2})*)$")
# A refusal, a bad line, or a call of a trace that is answered otherwise.
REFUSED = re.compile(rb" *(?:%b) (?:client )?\w+:? error |line [0-9]+: [a-z-]+$|.*\) += .* but " % PLACE)
WAITS = re.compile(rb" *[0-9]+\.[0-9]+ \w+ waits$")
RED, YELLOW, PLAIN = b"\x1b[31m", b"\x1b[33m", b"\x1b[m"


class Style:
    """What the words of a command line ask for. `objects` makes those of JSON of lines."""

    def __init__(self):
        self.text = self.color = False
        self.objects = None
        # What each object begins with.
        self.head = {}

    def is_plain(self):
        return not (self.text or self.color or self.objects)

    def dressed(self, lines):
        """The lines as they are shown."""
        return map(self.json, self.objects(lines)) if self.objects else map(self.line, lines)

    def json(self, found):
        return json.dumps({**self.head, **found}, separators=(",", ":")).encode() + b"\n"

    def line(self, line):
        body = line.rstrip(b"\n")
        shown = HEX.sub(lambda it: it[1] + text_of(it[2]), body) if self.text else body
        color = self.color and (RED if REFUSED.match(body) else YELLOW if WAITS.match(body) else b"")
        return (color + shown + PLAIN if color else shown) + line[len(body) :]


# That of this run.
STYLE = Style()
# The objects of JSON of each command; the others make their own, or have none.
OBJECTS = {
    "run": objects.rows,
    "explain": objects.notes,
    "why": objects.notes,
    "who": objects.objects,
    "orphans": objects.objects,
    "journal": objects.journal,
    "replay": objects.replay,
}


def taken(options, command):
    """Sets the style as the options have it, and gives the others."""
    asked = dict(options)
    STYLE.text = "--text" in asked
    STYLE.color = is_coloured(asked.get("--color", "auto"))
    STYLE.objects = OBJECTS.get(command) if "--json" in asked else None
    return [it for it in options if it[0] not in ("--text", "--color") and (it[0] != "--json" or command not in OBJECTS)]


def text_of(digits):
    """The text of these bytes: as in a script where all are printing characters, in quotes where blanks are among them, and else the bytes."""
    found = bytes.fromhex(digits.decode())
    if all(33 <= it <= 126 for it in found):
        return b"t:" + found
    if all(32 <= it <= 126 for it in found):
        return b'"' + found.replace(b"\\", b"\\\\").replace(b'"', b'\\"') + b'"'
    return b"x:" + digits


def is_coloured(when):
    """Whether colours are asked for: always, never, or on a terminal that has them unless NO_COLOR is set."""
    if when not in ("auto", "always", "never"):
        raise Usage(f"'{when}' is no time for colours; there are auto, always, never")
    return when == "always" or when == "auto" and has_colours()


def has_colours():
    is_terminal = sys.stdout is not None and sys.stdout.isatty()
    return is_terminal and not os.environ.get("NO_COLOR") and os.environ.get("TERM") != "dumb"
