"""json_rows.py FILE..: makes objects of the rows of these files, as ipcsh run --json does, reads their JSON, and prints the rows that these are of."""

import json
import pathlib
import sys

TOP = pathlib.Path(__file__).resolve().parent.parent
sys.path += [str(TOP / "lib"), str(TOP / "lib/front")]

import objects

KINDS = {name: letter.decode() for letter, name in objects.KINDS.items()}


def rows_of(it):
    """The row of an object, and the lines below it."""
    if "line" in it:
        return [f"line {it['line']}: {it['bad']}"]
    if "kind" in it:
        return [" ".join(map(str, [KINDS[it.pop("kind")], *it.values()]))]
    if "answer" not in it:
        return [" ".join([it.pop("client"), *(f"{name} {count}" for name, count in it.items())] if "client" in it else ["values", *map(str, it["values"])])]
    event, turn, client, answer = it.pop("event"), it.pop("turn", None), it.pop("client"), it.pop("answer")
    place = "-" if event is None else f"{event}.{turn}"
    listed = it.pop("objects", None)
    below = [f"  {line}" for one in listed or [] for line in rows_of(one)]
    words = [str(len(listed))] if listed is not None else words_of(answer, it)
    return [" ".join([place, client, answer, *words]), *below]


def words_of(answer, it):
    if answer in ("message", "bytes"):
        if "text" in it:
            assert it["text"].encode().hex() == it["hex"]
        return [*([str(it["type"])] if "type" in it else []), f"x:{it['hex']}"]
    if answer in ("id", "value", "attached", "error"):
        return [str(value) for value in it.values()]
    if answer == "values":
        return [str(value) for value in it["values"]]
    return [f"{name} {value}" for name, value in it.items()]


for file in sys.argv[1:]:
    with open(file, "rb") as lines:
        for found in objects.rows(lines):
            print("\n".join(rows_of(json.loads(json.dumps(found)))))
