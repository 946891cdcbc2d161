"""Tries wrong bodies and weakened plans, at the top of a repository that 'rt ci' has proved: each must be refused.

    wrong_bodies.py             all edits of crates/*/wrong, of checks/weakened and of checks/right
    wrong_bodies.py CRATE..     those of crates/CRATE/wrong
    wrong_bodies.py --anew ..   also those that an earlier run on this machine tried over the same texts, which count as tried else (lib/kept.py)
    wrong_bodies.py --read      tries none: tells of each whose texts do not stand in its file exactly once

An edit has lines 'refuses: FUNCTION', 'file: FILE', and pairs of 'old: TEXT' and 'new: TEXT', in which ⏎ is a line end;
each old text stands in the file exactly once. Edits of several functions are tried in one check, since what a function's
caller knows of it are its clauses alone: each must be refused for a goal of its own, and not for a function that it calls.
So what the other functions of the crate do is left out (lib/stubs.py).

What the prover can't do is no proof that a body is wrong: goals have names after local variables, branches and calls, and a written
proof cites such names, so it may not fit a right body in other words. So a goal counts only if the function has it as it stands, or if
nothing is written of the function's proof, and not if only names are lost. In each crate the functions are first tried as they stand, and
none may be refused; and bodies of checks/right, which are right ones in other words or which no clause excludes ('accepts: FUNCTION'),
must not be refused either. An edit with a line 'bound: BOUND' calls for a bound that its function hasn't: the compiler must say this and
nothing else. For each edit the goals are printed.
"""

import concurrent.futures
import functools
import os
import pathlib
import re
import shutil
import sys
import tempfile

import kept
import stubs
from crates import PARTS, TOP, Crates

# An error that says only that an edit took away what a proof names.
OF_NAMES = re.compile(r"has no field|is not in scope|has no `|was not admitted")
# An error in the answer to a goal, or in a step of its own; and one that names the goals which rest on such a step.
OF_ANSWER = re.compile(r"`([^`]+)`: (.*)")
OF_STEP = re.compile(r"\d+ declarations? that depends? on `([^`]+)`, which was rejected, (?:was|were) not checked: (.*)")
# A line that tells of an item whether it is proved.
ITEM = re.compile(r"(fn|impl|trait|struct|enum) \S+: ")
# A function whose plan no edit weakens.
UNTOUCHED = ("sem_calls", "Sets::getpid")


class Edit:
    """A change of files below a folder that one function must refuse, or accept."""

    def __init__(self, path):
        self.path, self.function, self.is_right, self.bound, self.pairs = path, "", False, "", []
        file = old = ""
        for line in path.read_text(encoding="utf-8").splitlines():
            word, _, text = line.partition(": ")
            text = text.replace("⏎", "\n")
            if word in ("refuses", "accepts"):
                self.function, self.is_right = text, word == "accepts"
            elif word == "bound":
                self.bound = text
            elif word == "file":
                file = text
            elif word == "old":
                old = text
            elif word == "new":
                self.pairs.append((file, old, text))

    def crate(self):
        """The crate of the function that a weakened plan must leave unproved."""
        return self.function.partition("::")[0]

    def change(self, texts, folder):
        """Changes texts by file, and returns whether each of its old texts stood there exactly once."""
        new = dict(texts)
        for file, old, text in self.pairs:
            now = new.get(file) or (folder / file).read_text(encoding="utf-8")
            if now.count(old) != 1:
                return False
            new[file] = now.replace(old, text)
        texts.update(new)
        return bool(self.pairs and self.function)


def groups(folder, edits):
    """Lists of edits that are tried together, each with its texts by file: in each there is one edit of a function, or one that lacks a bound."""
    found = []
    for edit in edits:
        fits = (it for it in found if not any(edit.function == other.function or edit.bound or other.bound for other in it[0]) and edit.change(it[1], folder))
        group = next(fits, None)
        if group:
            group[0].append(edit)
            continue
        texts = {}
        if not edit.change(texts, folder):
            sys.exit(f"wrong_bodies: {edit.path}: it names no function, or a text of it does not stand in its file exactly once")
        found.append(([edit], texts))
    return found


def edits_in(folder):
    return [Edit(path) for path in sorted(folder.glob("*.edit"))]


def copied(crate, texts, to):
    """A copy of a crate with these texts by file in place of its own."""
    shutil.rmtree(to, ignore_errors=True)
    for part in PARTS:
        if (TOP / "crates" / crate / part).is_dir():
            shutil.copytree(TOP / "crates" / crate / part, to / part)
    for file, text in texts.items():
        (to / file).write_text(text, encoding="utf-8")
    return to


class Verdict:
    """What a check said of a function: its path below the crate, the verdict, and the goals that aren't proved."""

    def __init__(self, path, text, notes, said):
        self.path, self.text = path, text
        errors = re.findall(rf"^\./proofs/{re.escape(path.replace('::', '/'))}/\S+: error: (.*)$", said, re.M)
        wrong = {it[1] for it in map(OF_ANSWER.match, errors) if it and not OF_NAMES.search(it[2])}
        resting = [re.sub(r" \(via [^)]*\)| and \d+ more$", "", it[2]).split(", ") for it in map(OF_STEP.match, errors) if it and it[1] in wrong]
        unfound = re.findall(r"`([^`]+)`", " ".join(re.findall(r"`search` did not prove ([^;]*)", text)))
        # goals that have no answer and aren't found, those whose answer is wrong now, and those that rest on a step that is
        self.open = {*notes, *unfound, *wrong, *(name for names in resting for name in names)}


def verdicts(crate, said):
    """The verdicts of a check on the functions of a crate. The goals that aren't proved are told right before each."""
    found, notes = [], []
    for line in said.splitlines():
        named = re.match(rf"fn {crate}::(\S+): (.*)", line)
        if named:
            found.append(Verdict(*named.groups(), notes, said))
        goal = line.startswith("note: src/") and re.search(r"is not proved .*?\(`([^`]+)`\)", line)
        notes = [*notes, goal[1]] if goal else [] if ITEM.match(line) else notes
    return found


def told_of(function, crate, said):
    """The verdicts on a function and on the closures in it."""
    name = function.rpartition("::")[2]
    return [it for it in verdicts(crate, said) if f"::{it.path}".endswith(f"::{function}") or f"fn::{function}::" in it.path or f"fn::{name}::" in it.path]


class Control:
    """A crate's functions as they stand, beside the stubs: what a check says of them, and each one's goals by its path."""

    def __init__(self, crates, crate, functions, folder, kept):
        self.said = crates.run("check", crate, folder, ["--incremental", kept, *only(functions)])
        told = {it.path: it for function in functions for it in told_of(function, crate, self.said)}
        self.refused = [it for it in told.values() if it.open]
        self.goals = {path: goals_in(kept, f"Rattle-{crate}-proofs.{path.replace('::', '.')}") for path in told}
        self.found = {path for path in told if not (folder / "proofs" / path.replace("::", "/")).is_dir()}

    def counts(self, path, goal):
        """The function has the goal as it stands, or nothing was written of its proof."""
        return path in self.found or goal in self.goals.get(path, ())

    def lacks(self, function):
        """None of the paths of a function has a goal: a name that the check doesn't know."""
        return not any(f"::{path}".endswith(f"::{function}") and goals for path, goals in self.goals.items())


def goals_in(kept, proof):
    """All goals of a proof, those too that are found without an answer, by what a check kept of it. Those with an answer stand apart."""
    files = (it for part in ("Goals", "Proof") for it in pathlib.Path(kept).glob(f"*/{proof}.{part}.oantt"))
    return {name.decode() for it in files for name in re.findall(rb'"spelling":"([^"]+)"', it.read_bytes())}


class Result:
    """What came of an edit: the goals for which it was refused, and why it failed, if it did."""

    def __init__(self, edit, goals, why, is_told=True):
        self.name, self.goals, self.why = os.path.relpath(edit.path, TOP), goals, why
        as_wanted = is_told and bool(goals) != edit.is_right
        self.failure = None if as_wanted else f"{self.name}: {edit.function} is {'' if edit.is_right else 'not '}refused: {why}"

    def __str__(self):
        return f"{self.name}: {', '.join(sorted(self.goals)) or f'accepted: {self.why}'}"


def result(edit, crate, function, said, counts=lambda path, goal: True):
    """An edit's result: its function, or a closure in it, is refused for the goals that count."""
    told = told_of(function, crate, said)
    goals = {goal for it in told for goal in it.open if counts(it.path, goal)}
    others = {goal for it in told for goal in it.open} - goals
    why = f"goals of other names: {', '.join(sorted(others))}" if others else [it.text for it in told] or said.rstrip().splitlines()[-1:]
    return Result(edit, goals, why if not goals else f"for {', '.join(sorted(goals))}", bool(told))


def unbound(edit, said):
    """The result of an edit that calls for a bound which its function hasn't: the compiler says this, and nothing else."""
    errors = re.findall(r"^src/\S+: error.*", said, re.M)
    lacking = f": {edit.bound}` is not satisfied"
    return Result(edit, {f"there is no {edit.bound}"} if errors and all(it.endswith(lacking) for it in errors) else set(), errors or [said[-200:]])


def only(functions):
    """The flags of a check of some functions, and of those that they call."""
    return [word for function in functions for word in ("--only", function)]


def size(crate):
    """How much there is to check in a crate."""
    return sum(path.stat().st_size for part in PARTS for path in (TOP / "crates" / crate / part).rglob("*") if path.is_file())


def try_bodies(crates, crate, edits):
    """What came of each edit of a crate, and the failures of its control."""
    results, functions = [], sorted({it.function for it in edits})
    names = {it.rpartition("::")[2] for it in functions}
    with tempfile.TemporaryDirectory(prefix="wrong-") as room:
        kept = f"{room}/kept"
        control = Control(crates, crate, functions, stubbed(crate, {}, room, names), kept)
        failed = [f"crates/{crate}: {it.path} is refused as it stands: {', '.join(sorted(it.open))}" for it in control.refused]
        failed += [f"crates/{crate}: {it} has no goals: {control.said.rstrip().splitlines()[-1:]}" for it in functions if control.lacks(it)]
        for group, texts in groups(TOP / "crates" / crate, edits):
            copy = stubbed(crate, texts, room, {it.function.rpartition("::")[2] for it in group})
            if group[0].bound:
                results.append(unbound(group[0], crates.run("check", crate, copy, ["--only", ""])))
                continue
            said = crates.run("check", crate, copy, ["--incremental", kept, *only(it.function for it in group)])
            results += [result(it, crate, it.function, said, control.counts) for it in group]
    return results, failed


def stubbed(crate, texts, room, names):
    """A copy of a crate with these texts by file, in which the functions of these names alone have bodies."""
    copy = copied(crate, texts, pathlib.Path(room) / crate)
    stubs.keep_only(copy, names)
    return copy


def by_crate(texts):
    """Texts of files below crates/CRATE, by crate and file."""
    found = {}
    for file, text in texts.items():
        _, crate, rest = file.split("/", 2)
        found.setdefault(crate, {})[rest] = text
    return found


def leave_out_lemmas(copy, crate, users):
    """Leaves out of a copy the lemma files that none of these crates names, nor a file of its own: a lemma for other crates speaks of
    the plans as they are, and that it fails says nothing of the code."""
    def cited(folder):
        texts = (path.read_text(encoding="utf-8") for part in PARTS for path in (folder / part).rglob("*") if path.is_file() and path.parent != copy / "proofs")
        return {name for text in texts for name in re.findall(rf"(?:Rattle\.{crate}|crate)(?:\.|::)proofs(?:\.|::)(\w+)", text)}

    files = {path.stem: path for path in (copy / "proofs").glob("*.antt") if path.stem != "Lib"}
    wanted, more = set(), {name for folder in [copy, *(TOP / "crates" / it for it in users)] for name in cited(folder)} & files.keys()
    while more:
        wanted |= more
        texts = (files[name].read_text(encoding="utf-8") for name in more)
        more = {name for text in texts for name in re.findall(rf"Rattle\.{crate}\.proofs\.(\w+)", text)} & files.keys() - wanted
    root = copy / "proofs/Lib.antt"
    for name in files.keys() - wanted:
        files[name].unlink()
        root.write_text(re.sub(rf"(?m)^(pub )?mod {name}\n", "", root.read_text(encoding="utf-8")), encoding="utf-8")


def build_between(crates, changed, targets, room):
    """Builds the changed crates, and those on them that the targets stand on. None where each is proved, or else what the prover said."""
    needed = set().union(*(crates.below(it) for it in targets))
    for crate in crates.uses:
        if crate in needed and (crate in changed or crates.below(crate) & crates.replaced.keys()):
            copy, library = copied(crate, changed.get(crate, {}), room / crate), room / "libraries" / f"{crate}.rlib"
            library.parent.mkdir(exist_ok=True)
            if crate in changed:
                leave_out_lemmas(copy, crate, {*needed, *targets} - {crate})
            said = crates.run("build", crate, copy, ["--statements", "-o", library])
            if not library.is_dir():
                return said
            crates.replaced[crate] = library
    return None


def try_plans(edits, texts, room):
    """A failure or None for each edit of a group: the code is not that of the plans that it leaves. The function that no edit is about is proved."""
    crates, wanted = Crates(), {}
    for name in [edit.function for edit in edits] + ["::".join(UNTOUCHED)]:
        crate, _, function = name.partition("::")
        wanted.setdefault(crate, []).append(function)
    broken = build_between(crates, by_crate(texts), wanted, room)
    if broken is not None:
        return [], [f"{edit.path.relative_to(TOP)}: the crates below are not proved: {broken.rstrip().splitlines()[-1:]}" for edit in edits]
    said = {it: crates.run("check", it, copied(it, {}, room / it), only(names)) for it, names in wanted.items()}
    results = [result(it, it.crate(), it.function.partition("::")[2], said[it.crate()]) for it in edits]
    kept = [it.text for it in told_of(UNTOUCHED[1], UNTOUCHED[0], said[UNTOUCHED[0]])] == ["proved"]
    return results, [] if kept else [f"checks/weakened: {'::'.join(UNTOUCHED)} is not proved over the plans"]


def apart(crates, edits):
    """Lists of edits that may be tried together: what a weakened plan leaves unproved in a crate, no crate of the others stands on."""
    found = []
    for edit in edits:
        crate = edit.crate()
        fits = (it for it in found if not any(crate in crates.below(other.crate()) or other.crate() in crates.below(crate) for other in it))
        part = next(fits, None)
        if part is None:
            part = []
            found.append(part)
        part.append(edit)
    return found


def plans():
    results, failed = [], []
    for part in apart(Crates(), edits_in(TOP / "checks/weakened")):
        for edits, texts in groups(TOP, part):
            with tempfile.TemporaryDirectory(prefix="weakened-") as room:
                more = try_plans(edits, texts, pathlib.Path(room))
                results, failed = results + more[0], failed + more[1]
    return results, failed


def edits_by_crate(names):
    """The wrong bodies of these crates, or of all with the right ones of checks/right, whose files begin with crates/CRATE."""
    found = {it: edits_in(TOP / "crates" / it / "wrong") for it in Crates().uses if not names or it in names}
    for edit in [] if names else edits_in(TOP / "checks/right"):
        crate = edit.pairs[0][0].split("/")[1]
        edit.pairs = [(file.split("/", 2)[2], old, new) for file, old, new in edit.pairs]
        found[crate].append(edit)
    return {crate: edits for crate, edits in found.items() if edits}


def unread(folder, edits):
    """Those of the edits below a folder that can't be tried, each by itself."""
    return [it for it in edits if not it.change({}, folder)]


def read():
    """Reads all edits, and returns a status."""
    edits = edits_by_crate([])
    lacking = [it for crate, its in edits.items() for it in unread(TOP / "crates" / crate, its)] + unread(TOP, edits_in(TOP / "checks/weakened"))
    for edit in lacking:
        print(f"{edit.path.relative_to(TOP)}: it names no function, or a text of it does not stand in its file exactly once")
    return 1 if lacking else 0


class Outcome:
    """What is printed of edits that are tried together: of each that came out as it must, and of each failure."""

    def __init__(self, passed, failed, is_kept=False):
        self.passed, self.failed, self.is_kept = passed, failed, is_kept

    def __str__(self):
        return "".join(f"{it}\n" for it in [*self.passed, *(f"FAILED {it}" for it in self.failed)])


def outcome(name, work, is_anew):
    """What comes of edits: what an earlier run kept under this name, or what a try of them finds, which is kept where none failed."""
    earlier = None if is_anew else kept.find(name)
    if earlier:
        return Outcome(earlier.splitlines(), [], True)
    results, failed = work()
    found = Outcome([str(it) for it in results if not it.failure], failed + [it.failure for it in results if it.failure])
    if found.passed and not found.failed:
        kept.keep(name, str(found))
    return found


def works(crates, edits, is_whole):
    """What there is to try, the largest first: for each crate, and for the plans, the name under which it is kept, and what tries it."""
    tried = sorted(edits, key=lambda it: size(it) + sum(map(size, crates.below(it))) / 20, reverse=True)
    of_plans = [(kept.key(crates, crates.uses, edits_in(TOP / "checks/weakened")), plans)] if is_whole else []
    return of_plans + [(kept.key(crates, [it], edits[it]), functools.partial(try_bodies, crates, it, edits[it])) for it in tried]


def told(outcomes):
    """Prints what each came to as it ends, and gives how many passed, how many of these were kept, and how many failed."""
    passed = earlier = failed = 0
    for it in outcomes:
        print(it, end="", flush=True)
        passed, earlier, failed = passed + len(it.passed), earlier + len(it.passed) * it.is_kept, failed + len(it.failed)
    return passed, earlier, failed


def main(words):
    if words == ["--read"]:
        return read()
    names = [it for it in words if it != "--anew"]
    crates, edits = Crates(), edits_by_crate(names)
    for crate, its in edits.items():
        groups(TOP / "crates" / crate, its)  # an edit that doesn't apply stops the run before it begins
    with concurrent.futures.ThreadPoolExecutor(len(os.sched_getaffinity(0))) as pool:
        begun = [pool.submit(outcome, name, work, names != words) for name, work in works(crates, edits, not names)]
        passed, earlier, failed = told(it.result() for it in concurrent.futures.as_completed(begun))
    if earlier:
        print(f"wrong_bodies: an earlier run on this machine tried {earlier} of them, over the same texts")
    print(f"{passed} passed, {failed} failed")
    return 1 if failed or not passed else 0


if __name__ == "__main__":
    sys.exit(main(sys.argv[1:]))
