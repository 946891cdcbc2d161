"""What docs/LANGUAGE.md says of a call or a directive, for a terminal."""

import re
import textwrap

import forms
from programs import TOP
from words import unknown
from plain_text import WIDTH, plain, wrapped

NAMES = [*forms.DIRECTIVES, *forms.CALLS]


def listing():
    return textwrap.wrap(", ".join(forms.CALLS), WIDTH, initial_indent="  ", subsequent_indent="  ")


def told(name):
    """The lines of the document that have its form, and its section up to the first example."""
    if name not in NAMES:
        raise unknown(name, "call", NAMES, "help lists them")
    text = (TOP / "docs/LANGUAGE.md").read_text("utf-8")
    return "\n\n".join([*forms_in(name, text), *section_of(name, text)]).splitlines()


def forms_in(name, text):
    """Its row on the first screen, or that of the grammar for a directive, which isn't there."""
    first_screen = text.partition("\n## ")[2].partition("\n## ")[0]
    rows = [cells(it) for it in first_screen.splitlines() if it.startswith("| `")]
    found = [f"{form}\n    {call}; answers {answer}" for form, call, answer in rows if re.search(rf"\b{name}\b", form)]
    return found or [f"{name} {it}" for it in re.findall(rf'[=|] "{name}" (.*)', text)]


def section_of(name, text):
    for part in re.split(r"\n###? ", text)[1:]:
        head, _, body = part.partition("\n")
        if name in re.findall(r"[a-z]+", head):
            before = body.partition("\n```")[0]
            return [table(it) if it.startswith("|") else wrapped(plain(it)) for it in before.strip().split("\n\n")]
    return []


def cells(row):
    return [plain(it) for it in row.strip("|").split(" | ")]


def table(text):
    """The rows of a table without its head, the cells of each on one line."""
    rows = map(cells, text.splitlines()[2:])
    return "\n".join(textwrap.fill("; ".join(it), WIDTH, initial_indent="  ", subsequent_indent="      ", break_on_hyphens=False) for it in rows)
