"""Makes exact scripts of those that people write: ./ipcsh_fmt, whose --help has the words."""

import argparse
import pathlib
import sys

sys.path.append(str(pathlib.Path(__file__).resolve().parent.parent))

import script
from streams import read_in, write_error, write_out


class Words(argparse.ArgumentParser):
    """The words of the command line. Others end the program with status 3."""

    def error(self, message):
        complain(f"{message}; ./ipcsh_fmt --help has the words")
        sys.exit(3)


def complain(text):
    write_error(f"ipcsh_fmt: {text}\n")


def words():
    it = Words(add_help=False, allow_abbrev=False)
    it.add_argument("--check", action="store_true")
    it.add_argument("files", nargs="*")
    return it.parse_args()


def name_of(file):
    return "standard input" if file == "-" else file


def read(file):
    """The bytes of a file, each as a character; None where it can't be read."""
    try:
        found = read_in() if file == "-" else pathlib.Path(file).read_bytes()
    except (OSError, ValueError) as why:
        complain(f"{name_of(file)}: {getattr(why, 'strerror', why)}")
    else:
        return found.decode("latin-1")
    return None


def rewrite(file, is_check):
    """Rewrites a file, and gives the status."""
    text = read(file)
    if text is None:
        return 2
    found, faults = script.rewritten(text)
    if not is_check and not write_out(found.encode("latin-1")):
        complain("write failed")
        return 2
    for line, column, why in faults:
        shown = why.encode("latin-1").decode("utf-8", "backslashreplace")
        complain(f"{name_of(file)}: line {line}: column {column}: {shown}")
    return 1 if faults or is_check and found != text else 0


def main():
    given = words()
    return max(rewrite(it, given.check) for it in given.files or ["-"])


if __name__ == "__main__":
    sys.exit(main())
