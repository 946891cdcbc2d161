"""Arguments as strace writes them: numbers, flags by name, texts, lists and structures."""

import functools
import re

from c_words import FLAGS, unescaped

NUMBERS = {"NULL": 0, "IPC_PRIVATE": 0, **FLAGS, "SHM_DEST": 0o1000, "SHM_LOCKED": 0o2000}
OPENING, CLOSING = "([{", ")]}"
STRING = re.compile(r'"(?:[^"\\]|\\.)*"(?:\.\.\.)?', re.S)
OCTAL, DECIMAL, HEX = re.compile(r"-?0[0-7]*"), re.compile(r"-?[1-9][0-9]*"), re.compile(r"-?0x[0-9a-fA-F]+")
# Lists and structures of strace lie in one another at most three deep.
DEEPEST = 8


class NotTaken(Exception):
    """A line or a call that can't be translated; its text is the reason."""


# What comes of a line that strace wrote otherwise than it does, or that was damaged later.
DAMAGED = (NotTaken, ValueError, KeyError, IndexError, TypeError, AttributeError)


def reason(why):
    """The text of one of these."""
    return str(why) if isinstance(why, NotTaken) else "strace's line has another form"


class Text:
    """The bytes of a string, of which strace may have cut the end."""

    def __init__(self, word):
        self.is_cut = word.endswith("...")
        self.bytes = unescaped(word.rstrip(".")[1:-1])


def parts(text):
    """The parts of a list between its commas, where these aren't inside a bracket or a string."""
    found, depth, begin, at = [], 0, 0, 0
    while at < len(text):
        string = STRING.match(text, at) if text[at] == '"' else None
        depth += (text[at] in OPENING) - (text[at] in CLOSING)
        if text[at] == "," and depth == 0:
            found.append(text[begin:at].strip())
            begin = at + 1
        at = string.end() if string else at + 1
    last = text[begin:].strip()
    return found + [last] if last or found else []


@functools.lru_cache(None)
def number(word):
    """A number, or flags by name and number, as 0600, 0x5, -1 or IPC_CREAT|0600."""
    total = 0
    for part in re.sub(r"/\*.*?\*/", "", word).split("|"):
        part = part.strip()
        if part in NUMBERS:
            total |= NUMBERS[part]
        elif re.fullmatch(r"-?\d+<<\w+", part):
            continue
        elif (found := plain_number(part)) is None:
            raise NotTaken(f"'{word}' is no number that is known")
        else:
            total = found if part[0] == "-" else total | found
    if not -(2**63) <= total < 2**64:
        raise NotTaken(f"'{word}' is wider than 64 bits")
    return total


def plain_number(part):
    """A number without names; None for another text. No number of the kernel has more than 24 digits."""
    if len(part) > 24:
        return None
    base = 16 if HEX.fullmatch(part) else 8 if OCTAL.fullmatch(part) else 10 if DECIMAL.fullmatch(part) else None
    return None if base is None else int(part, base)


def number32(word):
    """A number of 32 bits, with or without a sign."""
    found = number(word)
    if not -(2**31) <= found < 2**32:
        raise NotTaken(f"'{word}' is wider than 32 bits")
    return found


def flags32(word):
    """Flags, or a mode, of 32 bits."""
    found = number32(word)
    if found < 0:
        raise NotTaken(f"'{word}' is no set of flags")
    return found


@functools.lru_cache(None)
def value(word, depth=0):
    """An argument: None for an address, a number, a Text, a list, or a structure as a dictionary. `...` in a list is Ellipsis."""
    if depth > DEEPEST:
        raise NotTaken("its brackets lie too deep in one another")
    if word == "...":
        return ...
    if word[:1] == '"':
        return Text(word)
    if word[:1] in ("{", "[") and word[-1:] in ("}", "]"):
        items = parts(word[1:-1])
        if items and all(re.match(r"\w+=", it) or it == "..." for it in items):
            return {it.split("=", 1)[0]: it.split("=", 1)[1] for it in items if it != "..."}
        return [value(it, depth + 1) for it in items]
    return number(word)


def numbers(word):
    """The numbers of a list; a list that strace cut can't be translated."""
    found = value(word)
    if not isinstance(found, list) or ... in found:
        raise NotTaken("strace cut the list: record with -v")
    if not all(isinstance(it, int) for it in found):
        raise NotTaken(f"'{word}' is no list of numbers")
    return found


def is_address(word):
    return re.fullmatch(r"0x[0-9a-fA-F]{5,}", word) is not None


def int32(found):
    """A number of 32 bits as the kernel reads it, with its sign."""
    return (found + 2**31) % 2**32 - 2**31


def int64(found):
    return (found + 2**63) % 2**64 - 2**63
