"""fmt_columns.py FILE..: prints each word of these scripts, as people write them, whose place in the exact script isn't told as its place there."""

import pathlib
import sys

TOP = pathlib.Path(__file__).resolve().parent.parent
sys.path += [str(TOP / "lib/fmt"), str(TOP / "lib")]

import script

for file in sys.argv[1:]:
    exact = script.Exact(pathlib.Path(file).read_bytes().decode("latin-1"))
    for number, (origin, line) in enumerate(exact.origins, 1):
        told, at = exact.text.split("\n")[number - 1], 0
        for it, word in zip(line.cut.found if line.cut and told == line.told[-1] else [], line.words):
            at = told.index(word, at)
            column = exact.column(number, at + 1)
            if column != it.start() + 1:
                print(f"{file}: line {origin}: '{it[0]}' is told in column {column}")
            at += len(word)
