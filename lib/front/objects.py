"""Objects of JSON for what the commands print, as docs/JSON.md has them. Each function takes the lines as they come, and gives an object once all its
lines are there."""

import re

KINDS = {b"q": "queue", b"s": "set", b"m": "segment"}
FIELDS = {b"q": ("key", "id", "uid", "mode", "cbytes", "qnum"), b"m": ("key", "id", "uid", "mode", "size", "nattch"), b"s": ("key", "id", "uid", "mode", "nsems")}
ROW = re.compile(rb"(?:([0-9]+)\.([0-9]+)|-) (\w+) (\w+)(?: (.*))?")
BAD = re.compile(rb"line ([0-9]+): ([a-z-]+)")
COUNTS = re.compile(rb"(\w+) calls ([0-9]+) refused ([0-9]+)(?: memory ([0-9]+))?")
LISTED = re.compile(rb" *([qms])((?: [0-9a-fx]+)+)")
VALUES = re.compile(rb"values((?: -?[0-9]+)*)")
OBJECT = re.compile("(queue|set|segment) ([0-9]+)(.*)")
SCRIPT = re.compile(rb"line ([0-9]+): (.*)", re.S)
AT_THE_END = re.compile(rb"at the end |a deadlock")
# What stands as it is printed, as its digits are no decimal ones.
WORDS = ("key", "mode")


def of_text(text):
    return text.decode("utf-8", "backslashreplace")


def plain(lines):
    """The lines without their ends."""
    return (it.rstrip(b"\r\n") for it in lines)


def rows(lines):
    """What run prints: an object for each row."""
    lines = plain(lines)
    for line in lines:
        found = row(line)
        if found.get("answer") == "list":
            found["objects"] = [listed(next(lines, b"")) for _ in range(found.pop("list"))]
        yield found


def row(line):
    bad, counts, it = BAD.fullmatch(line), COUNTS.fullmatch(line), ROW.fullmatch(line)
    if bad:
        return {"line": int(bad[1]), "bad": of_text(bad[2])}
    if counts:
        return {"client": of_text(counts[1]), **{name: int(count) for name, count in zip(("calls", "refused", "memory"), counts.groups()[1:]) if count}}
    if it:
        place = {"event": int(it[1]), "turn": int(it[2])} if it[1] else {"event": None}
        return {**place, "client": of_text(it[3]), "answer": of_text(it[4]), **answered(it[4].decode(), (it[5] or b"").split(b" "))}
    return listed(line)


def answered(answer, words):
    """What follows the word of an answer."""
    if answer in ("id", "value", "attached", "list"):
        return {answer: int(words[0])}
    if answer == "error":
        return {"number": int(words[0]), "error": of_text(words[1]), "rule": of_text(words[2])}
    if answer == "message":
        return {"type": int(words[0]), **text(words[1])}
    if answer == "bytes":
        return text(words[0])
    if answer == "values":
        return {"values": [int(it) for it in words if it]}
    return pairs(words)


def text(word):
    """The bytes of a text, and its characters where all are printing ones."""
    found = bytes.fromhex(word[2:].decode())
    return {"hex": found.hex(), **({"text": found.decode()} if all(32 <= it <= 126 for it in found) else {})}


def pairs(words):
    """Names, each with the word behind it."""
    names = (it.decode() for it in words[::2])
    return {name: of_text(it) if name in WORDS else int(it) for name, it in zip(names, words[1::2])}


def listed(line):
    """An object of a listing, or its values."""
    found, numbers = LISTED.fullmatch(line), VALUES.fullmatch(line)
    if found:
        return {"kind": KINDS[found[1]], **{name: of_text(it) if name in WORDS else int(it) for name, it in zip(FIELDS[found[1]], found[2].split())}}
    return {"values": [int(it) for it in numbers[1].split()]} if numbers else {"text": of_text(line)}


def blocks(lines, indent):
    """Each line with those below it that are indented so."""
    head, below = None, []
    for line in plain(lines):
        if line.startswith(indent) and head is not None:
            below.append(line)
        else:
            if head is not None:
                yield head, below
            head, below = line, []
    if head is not None:
        yield head, below


def notes(lines):
    """What explain prints: an object for each row with the line of the script above it and its notes, and at the end one for who waits."""
    end, above = [], []
    for head, below in blocks(lines, b"  "):
        if head.startswith(b"> "):
            above.append(head[2:])
            continue
        told = list(unfolded(it for it in below if it.startswith(b"    ")))
        of_end = [it for it in told if AT_THE_END.match(it)]
        end += of_end
        it = SCRIPT.match(b" ".join(map(bytes.strip, above)))
        script = {"line": int(it[1]), "script": of_text(it[2])} if it else {}
        found = next(rows([head, *(it for it in below if not it.startswith(b"    "))]))
        of_row = [of_text(it) for it in told if it not in of_end]
        yield {**script, **found, **({"notes": of_row} if of_row else {})}
        above = []
    if end:
        yield {"end": [of_text(it) for it in end]}


def unfolded(lines):
    """Notes, without what folded them: a line behind six blanks goes on with the one above it."""
    whole = []
    for line in lines:
        if line.startswith(b"      ") and whole:
            whole[-1] += b" " + line.strip()
        else:
            whole.append(line.strip())
    return whole


def objects(lines):
    """What who and orphans print: an object for each object, with what is said of it."""
    for head, below in blocks(lines, b" "):
        it = OBJECT.fullmatch(of_text(head))
        words = it[3].split() if it else []
        found = {"kind": it[1], "id": int(it[2]), **dict(zip(words[::2], words[1::2]))} if it else {"text": of_text(head)}
        yield {**found, **({"lines": [of_text(line.strip()) for line in below]} if below else {})}


def rights(lines):
    """What who --script prints: an object for the object, and one for each row of the table, by its heads."""
    heads = None
    for line in plain(lines):
        text = of_text(line)
        if text.startswith("client "):
            heads = [(it.start(), it[0]) for it in re.finditer(r"\w+", text)]
        elif heads:
            ends = [start for start, _ in heads[1:]] + [None]
            yield {head: text[start:end].strip() for (start, head), end in zip(heads, ends)}
        else:
            yield from objects([line])


LIMIT = re.compile(rb"limit ([a-z-]+) ([0-9]+)")
CALLER = re.compile(rb"client ([0-9]+): (.*)")
CALL = re.compile(rb"at ([0-9]+) client ([0-9]+): (.*)")
ENDING = re.compile(rb" *([0-9]+)\.([0-9]+) client ([0-9]+): (granted|error ([0-9]+) (\w+) ([a-z-]+))")


def journal(lines):
    """What journal prints: an object for each limit, client, call and ending."""
    for line in plain(lines):
        limit, caller, call, it = (form.fullmatch(line) for form in (LIMIT, CALLER, CALL, ENDING))
        if limit:
            yield {"limit": of_text(limit[1]), "value": int(limit[2])}
        elif caller:
            yield {"client": int(caller[1]), "credentials": of_text(caller[2])}
        elif call:
            yield {"at": int(call[1]), "client": int(call[2]), "call": of_text(call[3])}
        elif it:
            refused = {"number": int(it[5]), "error": of_text(it[6]), "rule": of_text(it[7])} if it[5] else {}
            yield {"event": int(it[1]), "turn": int(it[2]), "client": int(it[3]), "answer": "error" if refused else "granted", **refused}
        else:
            yield {"text": of_text(line)}


DIFFERS = re.compile(rb"line ([0-9]+), row ([0-9]+): the journal differs")
SIDE = re.compile(rb"(it has|the definitions give): *(.*)")
SIDES = {b"it has": "found", b"the definitions give": "given"}


def replay(lines):
    """What replay prints: an object that says whether the journal is the same, and of one that differs where, what it has and what is given."""
    found = {}
    for line in plain(lines):
        differs, side = DIFFERS.fullmatch(line), SIDE.fullmatch(line)
        if differs:
            found = {"same": False, "line": int(differs[1]), "row": int(differs[2])}
        elif side and found:
            found[SIDES[side[1]]] = next(journal([side[2]]))
        else:
            yield {"same": True} if line == b"same" else {"text": of_text(line)}
    if found:
        yield found


CALLER_AT = re.compile(r"pid ([0-9]+) \((.*)\): user ([0-9]+), group ([0-9]+)(?:, supplementary groups((?: [0-9]+)+))?")
CLASS_AT = re.compile(r"class (owner|group|others): (.*)")
ANSWER_AT = re.compile(r"(read|write|set and remove)(?: \(attached .*?\))?: (?:no \((\w+), ([a-z-]+)\)(?:; (CAP_\w+) would have allowed it)?|(\w+))")
ANSWERS = {"read": "read", "write": "write", "set and remove": "control"}


def reasons(lines):
    """What why prints of a process at an object: an object of both, with the class and an object for each answer."""
    found = {}
    for line in map(of_text, plain(lines)):
        caller, it, answer, at = (form.fullmatch(line) for form in (CALLER_AT, CLASS_AT, ANSWER_AT, OBJECT))
        if at:
            found.update(next(objects([line.encode()])))
        elif caller:
            groups = [int(group) for group in (caller[5] or "").split()]
            found.update({"pid": int(caller[1]), "name": caller[2], "user": int(caller[3]), "group": int(caller[4]), "groups": groups})
        elif it:
            found.update({"class": it[1], "why": it[2]})
        elif answer:
            allowed = {"allowed": True, "by": answer[5]}
            denied = {"allowed": False, "error": answer[2], "rule": answer[3], **({"capability": answer[4]} if answer[4] else {})}
            found[ANSWERS[answer[1]]] = allowed if answer[5] else denied
        else:
            yield {"text": line}
    if found:
        yield found
