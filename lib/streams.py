"""The standard streams, each of which may be closed, and those that are written also full."""

import contextlib
import errno
import os
import sys


def standard_input():
    """Standard input, as a file of bytes."""
    if sys.stdin is None:
        raise OSError(errno.EBADF, os.strerror(errno.EBADF))
    return sys.stdin.buffer


def read_in():
    """All of standard input."""
    return standard_input().read()


def lines_in():
    """The lines of standard input, each as it comes."""
    return iter(standard_input().readline, b"")


def write_error(text):
    """Writes to standard error, where that can be written."""
    with contextlib.suppress(OSError, AttributeError):
        sys.stderr.write(text)
        sys.stderr.flush()


def write_out(rest):
    """Writes bytes to standard output without a buffer, and says whether all of them were taken."""
    try:
        while rest:
            rest = rest[os.write(sys.stdout.fileno(), rest) :]
    except (OSError, AttributeError):
        return False
    return True
