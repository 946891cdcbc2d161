"""progress.py LOG CRATE..: tells how far a build of these crates is, by the log of the one that goes on, until it is ended. Those before that one are
done; LOG is out/CRATE.log. At a terminal this is one line, which changes, and else a line a minute."""

import functools
import os
import pathlib
import re
import signal
import sys
import time

TOP = pathlib.Path(__file__).resolve().parent.parent
CRATE = re.compile(r"^rt: chose --jobs [0-9]+ for (\w+)$", re.M)
# Of a line of source, on four idle cores.
SECONDS_A_LINE = 0.05
# A build whose own pace isn't known yet: so many seconds of it count as told by that number.
SECONDS_KNOWN = 120
LOOK, TELL = 2, 60


@functools.cache
def uses():
    """What each crate of the repository stands on, by crates.txt."""
    parts = (line.partition("#")[0].partition(":") for line in (TOP / "crates.txt").read_text("utf-8").splitlines())
    return {name.split()[0]: below.split() for name, _, below in parts if name.strip()}


def in_order(crates):
    """These crates with all below them, in the order in which they are built."""
    found = {}
    for crate in crates:
        if crate in uses() and crate not in found:
            found.update(dict.fromkeys([*in_order(uses()[crate]), crate]))
    return list(found)


@functools.cache
def lines_of(crate):
    return sum(file.read_bytes().count(b"\n") for file in (TOP / "crates" / crate / "src").rglob("*.rt"))


def seconds_left(done, left, elapsed):
    """What so many lines take, where those that are done have taken so long."""
    pace = (elapsed + SECONDS_KNOWN) / (done + SECONDS_KNOWN / SECONDS_A_LINE)
    return pace * left


def told(crates, building, log, elapsed):
    """How far a build of these crates is, of which the one that goes on has this log since so many seconds."""
    order = in_order(crates)
    names = [it for it in CRATE.findall(log) if it in order]
    at = order.index(names[-1]) if names else len(in_order(crates[: crates.index(building)]))
    left = seconds_left(sum(map(lines_of, names[:-1])), sum(map(lines_of, order[at:])), elapsed)
    minutes = max(1, round(left / 60))
    return f"crate {at + 1} of {len(order)}, about {minutes} minute{'s'[: minutes > 1]} left"


def tell(text, before):
    """Writes a line, at a terminal over the one before."""
    begin, end = ("\r", " " * (len(before) - len(text))) if sys.stderr.isatty() else ("", "\n")
    sys.stderr.write(begin + text + end)
    sys.stderr.flush()


def end(*_):
    sys.stderr.write("\n" if sys.stderr.isatty() else "")
    sys.exit()


def main(log, *crates):
    signal.signal(signal.SIGTERM, end)
    parent, began, before, last = os.getppid(), time.time(), "", 0
    # An interrupt ends the build, and not what runs beside it.
    while os.getppid() == parent:
        file, now = pathlib.Path(log), time.time()
        text = told(crates, file.stem, file.read_text("utf-8", "replace"), now - began)
        if text != before and (sys.stderr.isatty() or now - last >= TELL):
            tell(text, before)
            before, last = text, now
        time.sleep(LOOK)


if __name__ == "__main__":
    main(*sys.argv[1:])
