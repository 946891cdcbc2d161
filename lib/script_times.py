"""What long scripts take of the processor, beside an awk that splits the same lines, or counts them, in turn.

    script_times.py PROGRAM
"""

import os
import subprocess
import sys
import tempfile

# What awk does with the lines of a script: it splits each and prints a row, or it counts them.
SPLITS = '{ n += split($0, w, " "); print NR ".0 " w[1] " id 0" }'
COUNTS = "END { print NR }"
# What is measured: its name, the lines before the repeated one, this, how often it stands there, and awk's program.
INPUTS = [
    ("1,000,000 lines `a msgget 5 0` of an existing key", "client a 100 10\na msgget 5 01600\n", "a msgget 5 0\n", 1_000_000, SPLITS),
    ("16,777,216 line feeds, as many as the input may have", "", "\n", 16_777_216, COUNTS),
]
# How often each command runs.
ROUNDS = 9


def seconds(words, path):
    """What one run of a command takes that reads this file, in seconds of the processor."""
    with open(path, "rb") as text:
        _, status, usage = os.wait4(subprocess.Popen(words, stdin=text, stdout=subprocess.DEVNULL).pid, 0)
    if status:
        sys.exit(f"script_times: {words[0]} ended with status {status}")
    return usage.ru_utime + usage.ru_stime


def middle(numbers):
    return sorted(numbers)[len(numbers) // 2]


def main(program):
    print("| Input | `ipcsh` | `awk` | ratio |\n|---|---|---|---|")
    for name, head, line, count, splits in INPUTS:
        with tempfile.NamedTemporaryFile("w") as file:
            file.write(head + line * count)
            file.flush()
            runs = [(seconds([program], file.name), seconds(["awk", splits], file.name)) for _ in range(ROUNDS)]
            own, other = (middle(column) for column in zip(*runs))
            ratio = middle([mine / its for mine, its in runs])
            print(f"| {name} | {own:.2f} s | {other:.2f} s | {ratio:.2f} |")


if __name__ == "__main__":
    main(*sys.argv[1:])
