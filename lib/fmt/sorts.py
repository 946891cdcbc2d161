"""What an argument may be. A sort gives the exact words for the one that people write, which for an exact word is that word, and None
for one that it can't read."""

import functools
import grp
import itertools
import pwd
import re
import stat

import names
from c_words import BITS, ESCAPES, FLAGS, unescaped

NUMBER = re.compile(r"0x[0-9a-fA-F]+|0[0-7]*|[1-9][0-9]{0,19}")
SIZE = re.compile(r"([1-9][0-9]{0,19})([KMG])(?:iB)?")
UNITS = {"K": 2**10, "M": 2**20, "G": 2**30}
KINDS = {"msg": "q", "queue": "q", "q": "q", "sem": "s", "set": "s", "s": "s", "shm": "m", "segment": "m", "m": "m"}
# Of a mode, and of a segment's pages, which are ignored.
BITS_BY_NAME = {it: getattr(stat, it) for it in dir(stat) if re.fullmatch(r"S_I[RWX](USR|GRP|OTH)|S_IRWX[UGO]", it)}
BITS_BY_NAME.update({**FLAGS, "SHM_HUGE_2MB": 21 << 26, "SHM_HUGE_1GB": 30 << 26})
ACCOUNT = re.compile(r"[A-Za-z_][A-Za-z0-9_.@\\-]*\$?")
EXACT_TEXT = re.compile(r"t:[!-~]*|x:(?:[0-9a-f]{2})*")
# A text without quotes, which isn't meant as one of the exact language or one in quotes.
BARE_TEXT = re.compile(r"(?![tTxX]?:|')[!-~]+")
ESCAPE = rf"\\(?:[{re.escape(''.join(ESCAPES))}]|x[0-9a-fA-F]{{2}}|[0-7]{{1,3}})"
QUOTED = re.compile(rf'"(?:[^"\\]|{ESCAPE})*"')
OPERATION = r"\{(?:sem_num=)?(\w+), *(?:sem_op=)?([-+]?\w+), *(?:sem_flg=)?([\w|]+)\}"
OPERATIONS = re.compile(rf"\[{OPERATION}(?:, *{OPERATION})*\]", re.A)


class Unread(Exception):
    """A word that can't be read, with the reason and the place in it."""

    def __init__(self, text):
        super().__init__(text)
        self.place = 0


def value(word):
    """The number that a word of the language is; None for another word."""
    if not NUMBER.fullmatch(word):
        return None
    return int(word, 16 if word[:2] == "0x" else 8 if word[0] == "0" else 10)


def number(bits):
    @functools.lru_cache(None)
    def read(word):
        found = value(word)
        return None if found is None or found >> bits else word

    return read


def signed(bits):
    @functools.lru_cache(None)
    def read(word):
        found = value(word[1:] if word[:1] in ("+", "-") else word)
        if found is None:
            return None
        return word if -(2 ** (bits - 1)) <= (-found if word[0] == "-" else found) < 2 ** (bits - 1) else None

    return read


number_16, number_32, number_64 = number(16), number(32), number(64)


def flags(bits):
    plain = number(bits)

    @functools.lru_cache(None)
    def read(word):
        return plain(word) or named_flags(word, bits)

    return read


def named_flags(word, bits):
    """Names and numbers with `|` between them. 640 isn't read there: it may be meant in octal."""
    total = 0
    for part in re.split(r"[ \t]*\|[ \t]*", word):
        found = BITS_BY_NAME.get(part, value(part) if part[:1] == "0" else None)
        if found is None:
            return None
        total |= found
    return None if total >> bits else f"0{total:o}" if total else "0"


def key(word):
    return "0" if word == "IPC_PRIVATE" else number_32(word)


def kind(word):
    return KINDS.get(word)


def size(word):
    """A number of bytes, or of something else that is counted."""
    found = SIZE.fullmatch(word)
    return number_64(str(int(found[1]) * UNITS[found[2]]) if found else word)


def any_word(word):
    return word


def client(word):
    return word if names.is_exact(word) else None


def process_or_client(word):
    return client(word) or number_32(word)


@functools.lru_cache(None)
def user(word):
    return account(word, "user", lambda it: pwd.getpwnam(it).pw_uid)


@functools.lru_cache(None)
def group(word):
    return account(word, "group", lambda it: grp.getgrnam(it).gr_gid)


def account(word, what, number_of):
    """A number, or a name that this machine has."""
    if not ACCOUNT.fullmatch(word):
        return number_32(word)
    try:
        return str(number_of(word))
    except KeyError:
        raise Unread(f"this machine has no {what} '{word}'") from None


def capability(word):
    name = re.sub("^CAP_", "", word.upper())
    return name if name in BITS else None


def fields(word, begin, separator, sorts):
    """The parts of a word from a place on, each read by its sort."""
    found, place = [], begin
    for part, sort in zip(word[begin:].split(separator), sorts):
        try:
            found.append(sort(part))
        except Unread as why:
            why.place += place
            raise
        place += len(part) + 1
    return None if None in found or place <= len(word) else word[:begin] + separator.join(found)


def groups(word):
    return word if word == "groups=-" else fields(word, len("groups="), ",", itertools.repeat(group))


def caps(word):
    return fields(word, len("caps="), ",", itertools.repeat(capability))


def saved(word):
    return fields(word, len("saved="), ":", (user, group)) if word.count(":") == 1 else None


OPERATION_PARTS = number_16, signed(16), flags(16)


@functools.lru_cache(None)
def operation(word):
    """An operation of a semop, or several of them as strace writes them."""
    if OPERATIONS.fullmatch(word):
        found = [operation(re.sub(":0$", "", ":".join(it))) for it in re.findall(OPERATION, word)]
        return None if None in found else " ".join(found)
    return fields(word, 0, ":", OPERATION_PARTS) if ":" in word else None


def text(word):
    """A text of the exact language, one in quotes, or a bare word."""
    if EXACT_TEXT.fullmatch(word):
        return word
    if word[:1] == '"':
        return quoted(word)
    return "t:" + word if BARE_TEXT.fullmatch(word) else None


def quoted(word):
    if not QUOTED.fullmatch(word):
        raise Unread('a text in quotes ends with a quote, and has \\" for one inside; its other escapes are those of C')
    return exact_text(unescaped(word[1:-1]))


def exact_text(found):
    """The text of these bytes, by characters where each has one that may stand in a line."""
    return "t:" + found.decode() if all(33 <= it <= 126 for it in found) else "x:" + found.hex()
