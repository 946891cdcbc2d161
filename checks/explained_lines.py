"""What explain prints of scripts, given pairs of a script and of that: the line above a row is that of the script once its flags are numbers again, each
row has one, or comes of the same line as the row before it, and no line but one of a single word is wider than a screen. It prints what isn't so."""

import pathlib
import re
import sys

TOP = pathlib.Path(__file__).resolve().parent.parent
sys.path += [str(TOP / "lib"), str(TOP / "lib/fmt"), str(TOP / "lib/front")]

import script
import sorts

ABOVE = re.compile(r"line ([0-9]+): (.*)", re.S)
ROW = re.compile(r"(line )?[0-9]+(\.0|:) ")
WIDTH = 80
# A line of these may make several calls.
COMMANDS = ["ipcs"], ["ipcrm"], ["ipcmk"]


def rows(lines):
    """Each bad line and each first row of an event: whether it is a bad line, and the line above it, None where there is none."""
    above = []
    for line in lines:
        row = ROW.match(line)
        if line.startswith(">   "):
            above[-1] += " " + line[1:].strip()
        elif line.startswith("> "):
            above.append(line[2:])
        elif row:
            yield bool(row[1]), ABOVE.fullmatch(above.pop()) if above else None


def are_same(word, other):
    """The same word, but for how its numbers are written."""
    fields = word.split(":"), other.split(":")
    return len(fields[0]) == len(fields[1]) and all(one == two or sorts.value(one) == sorts.value(two) is not None for one, two in zip(*fields))


def are_alike(line, other):
    words = line.split(), other.split()
    return len(words[0]) == len(words[1]) and all(map(are_same, *words))


def differences(file, explained):
    """What is told otherwise."""
    for line in explained:
        if len(line) > WIDTH and re.match("> | {4}", line) and len(line.split(" ", 1)[1].split()) > 1:
            yield f"wider than {WIDTH}: {line}"
    lines = [it.removesuffix("\r") for it in file.split("\n")]
    shown, last = {}, 0
    for is_bad, found in rows(explained):
        if found:
            last = int(found[1])
            shown[last] = is_bad, found[2]
        elif not is_bad and lines[last - 1].split()[1:2] not in COMMANDS:
            yield f"a row behind line {last} has no line above it"
    text = "\n".join(shown.get(number, (False, line))[1] for number, line in enumerate(lines, 1))
    exact = script.read(text)
    for number, (is_bad, line) in shown.items():
        told = line if is_bad else "\n".join(exact[number - 1].told)
        if not are_alike(told, lines[number - 1]):
            yield f"line {number} is {lines[number - 1]}, and above its row stands {line}"


def main(names):
    for file, explained in zip(names[::2], names[1::2]):
        text, told = (pathlib.Path(it).read_bytes().decode("latin-1") for it in (file, explained))
        for found in differences(text, told.split("\n")):
            print(f"{file}: {found}")


if __name__ == "__main__":
    main(sys.argv[1:])
