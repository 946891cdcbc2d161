"""fmt_lines.py PROGRAM SEED COUNT: as many random lines, of which those that the program takes stay as they are by ./ipcsh_fmt."""

import pathlib
import random
import sys

sys.path.append(str(pathlib.Path(__file__).resolve().parent / "fmt"))

import hostile
import script


def any_text(dice):
    """A line with a text of characters that mean something in other places."""
    return b"alice msgsnd 0 1 t:" + bytes(dice.choices(b'01ab:|#"\\[{,}]', k=dice.randrange(9))) + b" 04000"


def rewritten(lines):
    """What comes of these lines, and what can't be read in them."""
    found, faults = script.rewritten(b"\n".join(lines).decode("latin-1"))
    return found.encode("latin-1").split(b"\n"), faults


def main(program, seed, count):
    dice = random.Random(int(seed))
    ways = [any_text, hostile.random_words, hostile.one_byte_changed, lambda it: it.choice(hostile.GOOD)]
    lines = hostile.HEAD.splitlines() + [dice.choice(ways)(dice) for _ in range(int(count))]
    bad = hostile.lines_bad(hostile.run(program, b"\n".join(lines)))
    good = [it for number, it in enumerate(lines, 1) if number not in bad]
    found, faults = rewritten(good)
    for line, other in zip(good, found):
        if line != other:
            print(f"{line!r} becomes {other!r}")
    print(f"{len(good)} good lines of {len(lines)}, {len(faults)} faults")
    return 1 if found != good or faults else 0


if __name__ == "__main__":
    sys.exit(main(*sys.argv[1:]))
