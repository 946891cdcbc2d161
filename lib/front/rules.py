"""The rules and refusals of docs/PROFILE.md, as text for a terminal."""

import re
import textwrap

from plain_text import WIDTH, plain, wrapped
from programs import TOP
from words import Usage, unknown


class Rule:
    def __init__(self, number, section, text):
        self.number, self.section, self.text = number, section, plain(text)


class Refusal:
    def __init__(self, cells):
        number, error, name, meaning, calls, rules = map(plain, cells)
        self.number, self.error, self.name, self.meaning, self.calls, self.rules = number, error, name, meaning, calls, rules.split(", ")


def profile():
    return (TOP / "docs/PROFILE.md").read_text("utf-8")


def rules():
    found = {}
    for part in profile().split("\n## ")[1:]:
        section = part.partition("\n")[0]
        for number, text in re.findall(r"^([0-9]+)\. (.*(?:\n    .*)*)", part, re.MULTILINE):
            found[number] = Rule(number, section, text)
    return found


def refusals():
    rows = re.findall(r"^\| [0-9]+ \| E[A-Z0-9]+ \| `.*", profile(), re.MULTILINE)
    return {it.name: it for it in (Refusal(row.strip("| ").split(" | ")) for row in rows)}


def row(rule):
    """A line of the list, with what the rule begins with."""
    return f"  {rule.number:>2} {textwrap.shorten(rule.text, WIDTH - 5, placeholder=' ..', break_on_hyphens=False)}"


def rule_text(rule):
    return f"Rule {rule.number}, {rule.section} (docs/PROFILE.md#r{rule.number})\n\n{wrapped(rule.text)}"


def refusal_text(it, known):
    head = f"{it.name}: {it.error} {it.number}\n\n{wrapped(f'It means: {it.meaning}.')}\n{wrapped(f'Given by {it.calls}.')}"
    return "\n\n".join([head, *(rule_text(known[number]) for number in it.rules)])


def refusal_rows(found):
    return "\n".join(textwrap.fill(it.meaning, WIDTH, initial_indent=f"  {it.name:19} {it.error:7} ", subsequent_indent=" " * 30) for it in found)


def text_of(word):
    """What there is of a number, of a refusal or of an error."""
    known, named = rules(), refusals()
    if word in known:
        return rule_text(known[word])
    if word in named:
        return refusal_text(named[word], known)
    of_error = [it for it in named.values() if it.error == word.upper()]
    if of_error:
        return refusal_rows(of_error)
    if word.isdigit():
        raise Usage(f"'{word}' is no rule; they are 1 to {len(known)}")
    raise unknown(word, "rule", [*named, *(it.error for it in named.values())], "ipcsh rule lists them")


def all_names():
    return [*rules(), *(it.name for it in refusals().values())]


def object_of(word):
    """A rule by its number, or a refusal by its name, as an object of JSON."""
    known, named = rules(), refusals()
    if word in known:
        it = known[word]
        return {"rule": int(it.number), "section": it.section, "text": it.text}
    if word in named:
        it = named[word]
        return {"refusal": it.name, "number": int(it.number), "error": it.error, "meaning": it.meaning, "calls": it.calls, "rules": [int(one) for one in it.rules]}
    raise unknown(word, "rule", list(named), "ipcsh rule lists them")


def list_text():
    parts, section = [], None
    for it in rules().values():
        if it.section != section:
            section = it.section
            parts.append(f"\n{section}" if parts else section)
        parts.append(row(it))
    return "\n".join([*parts, "\nRefusals", refusal_rows(refusals().values())])
