"""What may stand at the end of a line that is being typed."""

import glob
import re

import calls
import commands
import forms
from c_words import FLAGS
from words import KINDS

# Where a word begins that is completed: flags are joined by `|`.
BREAKS = " \t|"


def candidates(before, word, session):
    """The words that begin as this one, after the text before it."""
    return sorted(it for it in following(before, word, session) if it.startswith(word))


def following(before, word, session):
    """The words that may follow a text."""
    words = before.split()
    if words and before[-1] not in " \t":
        words.pop()
    if not words:
        return whole(first_words(session)) if not before else []
    if words[0].startswith(":") or words[0] in commands.BARE:
        return after_command(words, word)
    if session.now.is_client(words[0]):
        return whole(forms.CALLS) if len(words) == 1 else arguments(words[1], words[2:], session)
    return []


def whole(words):
    """These words, each with the blank that ends it."""
    return [f"{it} " for it in words]


def first_words(session):
    return [*session.now.clients(), *forms.DIRECTIVES, *(f":{it}" for it in commands.COMMANDS), *commands.BARE]


def after_command(words, word):
    name = words[0].lstrip(":")
    if len(words) > 1:
        return []
    if name in ("save", "save!", "svg"):
        return glob.glob(f"{glob.escape(word)}*")
    return whole({"help": calls.NAMES, "who": KINDS}.get(name, []))


def arguments(call, words, session):
    """What the next argument of a call may be, by its sort."""
    if call not in forms.CALLS:
        return []
    sort = forms.CALLS[call].names_for([*words, ""])[-1]
    if sort in ("client", "target"):
        return whole(session.now.clients())
    if sort in ("id", "att"):
        return whole(session.now.answers("id" if sort == "id" else "attached"))
    return FLAGS if sort == "flags" else whole({"key": ["IPC_PRIVATE"], "kind": KINDS}.get(sort, []))


def completer(session, line_so_far):
    """The function that readline asks for the candidates, one after another."""

    def complete(word, state):
        found = candidates(re.sub(f"{re.escape(word)}$", "", line_so_far()), word, session)
        return found[state] if state < len(found) else None

    return complete
