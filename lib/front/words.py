"""Words of the command line: options, kinds and numbers, in each of their spellings."""

import difflib
import pathlib
import re

HELP = pathlib.Path(__file__).resolve().parent / "help"
KINDS = {"queue": ("msg", "q"), "set": ("sem", "s"), "segment": ("shm", "m")}
MAX_ID = 2**31 - 1
# The options of each command, with their values.
COMMON = {"--color": "WHEN"}


class Usage(Exception):
    """A word that isn't taken."""

    status = 3


class Asked(Exception):
    """--help or --version in the place of what a command does."""


def help_of(command):
    return (HELP / command).read_text("utf-8")


def unknown(word, what, known, otherwise):
    """That a word is none of those that are known, and what may have been meant, or else where they are told."""
    found = difflib.get_close_matches(word, known, 1)
    return Usage(f"'{word}' is no {what}; " + (f"did you mean '{found[0]}'?" if found else otherwise))


def options_of(command):
    """The options that the help of a command has, each with the name of its value, or ''."""
    return dict(re.findall(r"^  (--[a-z]+)(?: ([A-Z]\S*))?", help_of(command), re.MULTILINE))


def split(command, words, before_program=False):
    """The options among the words, as pairs of name and value, and the other words. Behind a program all words are its own."""
    options, others = [], []
    words = list(words)
    while words:
        word = words.pop(0)
        if word == "--":
            return options, others + words
        if word == "-" or not word.startswith("-"):
            others.append(word)
            if before_program:
                return options, others + words
        else:
            options.append(option(command, word, words))
    return options, others


def option(command, word, following):
    """An option and its value, which is behind = or the next word."""
    if word in ("-h", "--help", "-V", "--version"):
        raise Asked(word)
    name, equals, value = word.partition("=")
    known = {**options_of(command), **COMMON}
    if name not in known:
        raise unknown(name, "option", [*known, "--help", "--version"], f"ipcsh help {command} has them")
    if not known[name]:
        if equals:
            raise Usage(f"'{name}' takes no value")
        return name, None
    if not equals:
        if not following:
            raise Usage(f"'{name}' wants {known[name]}")
        value = following.pop(0)
    return name, value


def written(options):
    """Options as the programs behind the commands take them."""
    return [name if value is None else f"{name}={value}" for name, value in options]


def is_number(word, largest=2**32 - 1):
    return re.fullmatch("[0-9]{1,10}", word) is not None and int(word) <= largest


def kind(word):
    for name, others in KINDS.items():
        if word == name or word in others:
            return name
    raise unknown(word, "kind", [*KINDS, "msg", "sem", "shm"], f"there are {', '.join(KINDS)}")


def identifier(word):
    if not is_number(word, MAX_ID):
        raise Usage(f"'{word}' is no identifier")
    return word


def pids(words):
    for word in words:
        if not is_number(word):
            raise Usage(f"'{word}' is no process number")
    return words


def only(options, name, form):
    """Refuses another option than this one."""
    for other, _ in options:
        if other != name:
            raise Usage(f"'{other}' doesn't go with {form}")


def count(words, least, most, form):
    """Refuses more or fewer words."""
    if len(words) < least:
        raise Usage(f"it wants {form}")
    if len(words) > most:
        raise Usage(f"'{words[most]}' is a word too many; it wants {form}")
