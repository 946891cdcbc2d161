"""Names of clients."""

import re

EXACT = re.compile(r"[a-z][a-z0-9]{0,15}")
LONGEST = 16
WRITTEN = re.compile(r"[A-Za-z_][A-Za-z0-9_-]{0,31}")
DIRECTIVES = ("client", "limit", "clock")


def is_exact(word):
    return EXACT.fullmatch(word) is not None and word not in DIRECTIVES


def renamed(written):
    """The name in the exact language for each of these that has one, each another. A name of the language stays, also a new one."""
    found = {it: it for it in written if is_exact(it)}
    taken = set(found)
    for word in written:
        if word not in found and word not in DIRECTIVES and WRITTEN.fullmatch(word):
            found[word] = new_name(word, taken)
            taken.add(found[word])
    return {**{it: it for it in found.values()}, **found}


def new_name(word, taken):
    """The small letters and digits of a name from the first letter on, with a number behind them where that name is taken."""
    base = re.sub(r"^[0-9]+", "", re.sub(r"[-_]", "", word.lower())) or "client"
    name, count = base[:LONGEST], 1
    while name in taken or not is_exact(name):
        count += 1
        name = base[: LONGEST - len(str(count))] + str(count)
    return name
