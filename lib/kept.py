"""What an earlier run on this machine found of the same texts, by a sum of all that it was found from, in the caller's cache: an entry never goes stale."""

import contextlib
import functools
import hashlib
import os
import pathlib
import tempfile

from crates import KIT, PARTS, TOP

# The entries longest unused go where there are more.
MOST = 2000
# What finds it, beside the kit and the crates.
FINDERS = ("lib/wrong_bodies.py", "lib/stubs.py", "lib/crates.py")


def folder():
    return pathlib.Path(os.environ.get("XDG_CACHE_HOME") or pathlib.Path.home() / ".cache") / "ipcsh/wrong"


@functools.cache
def sum_of_file(path):
    return hashlib.sha256(path.read_bytes()).hexdigest()


@functools.cache
def sum_of_crate(crate):
    files = sorted(it for part in PARTS for it in (TOP / "crates" / crate / part).rglob("*") if it.is_file())
    return [(str(it.relative_to(TOP)), sum_of_file(it)) for it in files]


def key(crates, names, edits):
    """The name under which is kept what came of these edits of crates of these names: the sum of the kit, of what tries them, of each crate with all
    that it stands on, and of the edits."""
    below = sorted({*names, *(lower for name in names for lower in crates.below(name))})
    parts = [(KIT / "KIT-ID").read_text("utf-8"), [sum_of_file(TOP / it) for it in FINDERS], [(it, crates.uses[it], sum_of_crate(it)) for it in below]]
    return hashlib.sha256(repr((parts, sorted((str(it.path.relative_to(TOP)), sum_of_file(it.path)) for it in edits))).encode()).hexdigest()


def find(name):
    """What is kept under a name, or None."""
    with contextlib.suppress(OSError, UnicodeDecodeError):
        text = (folder() / name).read_text("utf-8")
        os.utime(folder() / name)
        return text
    return None


def keep(name, text):
    """Keeps a text under a name, where the cache can be written; no other run sees half of it."""
    with contextlib.suppress(OSError):
        folder().mkdir(parents=True, exist_ok=True)
        with tempfile.NamedTemporaryFile("w", dir=folder(), prefix="new-", delete=False, encoding="utf-8") as file:
            file.write(text)
        os.replace(file.name, folder() / name)
        by_use = sorted(folder().iterdir(), key=lambda it: it.stat().st_mtime, reverse=True)
        for old in by_use[MOST:]:
            old.unlink()
