#!/usr/bin/env python3
"""Runs a service whose journal goes to a file while it runs, for more and more calls: what memory it takes, and what a replay of
its file says. Its words are the program, the one that replays, and the most calls that are tried; for `./bench parts`."""

import os
import subprocess
import sys
import tempfile

CALLS_A_PART = 1_000
FEWEST = 10_000


def run(words, to):
    """The status of a program whose output goes to a file, and the most memory that it had, in KiB."""
    with open(to, "wb") as output:
        child = subprocess.Popen(words, stdout=output)
    _, status, usage = os.wait4(child.pid, 0)
    return os.waitstatus_to_exitcode(status), usage.ru_maxrss


def calls_and_lines(file):
    """How many lines of a journal are calls, and how many it has."""
    calls = lines = 0
    with open(file, "rb") as text:
        for line in text:
            lines += 1
            calls += line.startswith(b"at ")
    return calls, lines


def replayed(program, file):
    """The first line of what a replay says."""
    told = subprocess.run([program, "--replay", file], stdout=subprocess.PIPE, check=False).stdout
    return told.split(b"\n")[0].decode()


def measure(program, replay, calls, file):
    """One row of the table; whether all is as it should."""
    status, most = run([program, str(calls // CALLS_A_PART)], file)
    found, lines = calls_and_lines(file)
    told = replayed(replay, file)
    print(f"{found:>12,}{lines:>14,}{os.path.getsize(file) / 2**20:>12.1f}{most / 1024:>12.1f}  {told}", flush=True)
    return status == 0 and found == calls and told == "same"


def main():
    program, replay, most = sys.argv[1], sys.argv[2], int(sys.argv[3])
    print(f"{'calls':>12}{'lines':>14}{'file, MiB':>12}{'peak, MiB':>12}  replay")
    calls, good = FEWEST, True
    with tempfile.TemporaryDirectory() as folder:
        while calls <= most and good:
            good = measure(program, replay, calls, f"{folder}/journal")
            calls *= 10
    return 0 if good else 1


sys.exit(main())
