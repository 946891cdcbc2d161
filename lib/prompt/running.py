"""Runs ./ipcsh: its program for each line, and its commands for the words after `:`."""

import re
import subprocess

from programs import TOP, Fault

# How messages of a program begin, where that isn't for the reader of a prompt.
HEAD = re.compile(r"^ipcsh\w*(?: [a-z]+)?: (?:standard input: |-: )?(?:line ([0-9]+): )?", re.M)


def heard(words, text):
    """What ./ipcsh with these words prints of a script: on standard output, on standard error, and its status."""
    it = subprocess.run([TOP / "ipcsh", *words], input=text, stdout=subprocess.PIPE, stderr=subprocess.PIPE, check=False)
    if it.returncode < 0:
        raise Fault(f"signal {-it.returncode} has ended what ran")
    return text_of(it.stdout), text_of(it.stderr), it.returncode


def lines_of(text):
    return text.rstrip("\n").split("\n") if text else []


def text_of(found):
    """Bytes as text that is written as these bytes."""
    return found.decode("utf-8", "surrogateescape")


def plainly(messages):
    """Messages without the names of programs."""
    return HEAD.sub("", messages)
