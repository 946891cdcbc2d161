"""Says of a trace of strace whether the kernel answered what the definitions give: ./ipcsh_trace, whose --help has the words."""

import argparse
import json
import pathlib
import subprocess
import sys
import time

sys.path.append(str(pathlib.Path(__file__).resolve().parent.parent))

import choosing
import lines
import machine
import orders
import plan as plans
import runs
import sessions
from creds import CAPABILITIES, Creds
from streams import write_error, write_out

LIMITS = {"queues": 32000, "sets": 32000, "segments": 4096, "shmmax": 2**30}
KINDS = ("queues", "sets", "segments")
NAMES = ("slots", *KINDS, "first-seq", "msgmax", "msgmnb", "semmsl", "semopm", "shmmax")


class Words(argparse.ArgumentParser):
    """The words of the command line. Others end the program with status 3."""

    def error(self, message):
        complain(f"{message}; ./ipcsh_trace --help has the words")
        sys.exit(3)


def complain(text):
    write_error(f"ipcsh_trace: {text}\n")


def words(given=None):
    """What the words of the command line ask for, or those that are given."""
    it = Words(add_help=False, allow_abbrev=False)
    it.add_argument("--json", action="store_true")
    it.add_argument("--script", action="store_true")
    it.add_argument("--uid", type=int)
    it.add_argument("--gid", type=int)
    it.add_argument("--groups", type=listed(int), default=[])
    it.add_argument("--caps", type=listed(capability))
    it.add_argument("--limit", type=limit, action="append", default=[])
    it.add_argument("--output")
    it.add_argument("--seconds", type=seconds)
    it.add_argument("--record", nargs=argparse.REMAINDER)
    it.add_argument("files", nargs="*")
    given = it.parse_args(given)
    if given.record is not None and (given.files or not given.record):
        it.error("--record takes a program and its arguments, and no file of a trace")
    if given.json and given.script:
        it.error("--json doesn't go with --script")
    if given.output and given.record is None:
        it.error("--output is of --record")
    for name, number in [("--uid", given.uid), ("--gid", given.gid), *(("--groups", one) for one in given.groups)]:
        if number is not None and not 0 <= number < 2**32:
            it.error(f"{name}: {number} is no user or group")
    return given


def listed(kind):
    """The type of a list with commas."""

    def read(word):
        return [kind(it) for it in word.split(",") if it]

    read.__name__ = "list"
    return read


def capability(word):
    if word not in CAPABILITIES:
        raise ValueError(word)
    return word


def seconds(word):
    """A time, which is no less than 0."""
    found = float(word)
    if not 0 <= found < 2**31:
        raise ValueError(word)
    return found


def limit(word):
    """A pair of a limit's name and its number."""
    name, _, number = word.partition("=")
    if name not in NAMES or not number.isdigit():
        raise ValueError(word)
    return name, int(number)


def by_kind(given):
    """Limits that are given one after the other, of which slots are those of each kind."""
    found = {}
    for name, number in given:
        found.update(dict.fromkeys(KINDS, number) if name == "slots" else {name: number})
    return found


def opening_of(given):
    """The credentials that options give, and from where they are."""
    if given.record:
        return machine.credentials(), "those of this run"
    user, group = given.uid or 0, given.gid or 0
    caps = given.caps if given.caps is not None else CAPABILITIES if user == 0 else ()
    is_default = given.uid is None and given.gid is None and not given.groups and given.caps is None
    return Creds(user, group, given.groups, caps), "by default" if is_default else "by options"


class Progress:
    """How far the search is, on a terminal."""

    def __init__(self, given):
        self.began, self.told, self.is_shown = time.monotonic(), 0, sys.stderr is not None and sys.stderr.isatty()
        self.ends_at, self.was_cut = None if given.seconds is None else self.began + given.seconds, False

    def goes_on(self):
        self.was_cut = self.ends_at is not None and time.monotonic() >= self.ends_at
        return not self.was_cut

    def tell(self, done, all_of_them, tried):
        if self.is_shown and time.monotonic() > self.told + 0.5:
            self.told = time.monotonic()
            write_error(f"\ripcsh_trace: {100 * done // max(all_of_them, 1)} % of the trace, {tried} orders tried")

    def end(self):
        if self.told:
            write_error("\r\033[K")


def run_of(program, records, opening, source, limits, progress):
    """The run of the plan whose order fits best."""
    with_system = any(plans.needs_system(it) for it in records)
    while True:
        plan = plans.Plan(records, opening, source, with_system)
        orders.ordered(program, plan, limits, progress)
        plan.needs_system = False
        run = runs.Run(program, plan, limits).carry_out()
        if with_system or not plan.needs_system:
            return plan, run
        with_system = True


def text_of(record):
    pid = f" [pid {record.pid}]" if record.pid else ""
    return f"{record.place}{pid} {record.text or record.place.text.strip()}"


def verdict_lines(plan, run):
    """A line for each call, in the order of the trace, and for what isn't taken."""
    clients = [f"client {runs.thread_text(it, thread)}" for it in plan.clients.all for thread in it.threads]
    found = [(step.record, *run.verdicts[step]) for step in plan.steps if step in run.verdicts]
    told = [(record.at, f"{text_of(record)}{joined(is_so, text)}") for record, is_so, text in found]
    told += [(record.at, f"{text_of(record)}: {text}") for record, text in plan.notes + run.notes]
    return clients + [text for _, text in sorted(told, key=lambda it: it[0])]


VERDICTS = {True: "as defined", False: "otherwise", None: "not taken", runs.OPEN: "no answer"}


def verdict_objects(plan, run):
    """An object of JSON for each call, in the order of the trace, and for what isn't taken."""
    found = [(step.record, *run.verdicts[step]) for step in plan.steps if step in run.verdicts]
    found += [(record, None, text) for record, text in plan.notes + run.notes]
    for record, is_so, text in sorted(found, key=lambda it: it[0].at):
        yield {"place": str(record.place), "pid": record.pid, "call": record.text or record.place.text.strip(), "verdict": VERDICTS[is_so], "why": text}


def joined(is_so, text):
    if is_so is None:
        return f": not taken: {text}"
    if is_so == runs.OPEN:
        return f": {text}"
    return f": as defined{'' if text.startswith('(') else ','} {text}" if is_so else f" but {text}"


def last_line(plan, run):
    kinds = [it[0] for it in run.verdicts.values()]
    other = sum(text.startswith("not taken") for _, text in plan.notes + run.notes)
    counts = f"{len(kinds)} call{'s' * (len(kinds) != 1)}: {kinds.count(True)} as defined, {kinds.count(False)} otherwise, {kinds.count(None)} not taken"
    more = [f"{kinds.count(runs.OPEN)} without an answer in the trace"] if runs.OPEN in kinds else []
    more += [f"{other} other line{'s' * (other != 1)} not taken"] if other else []
    if plan.clients.left_out:
        count = len(plan.clients.left_out)
        more.append(f"{count} thread{'s' * (count != 1)} left out, since a script has at most 64 clients")
    if plan.skipped:
        names = ", ".join(sorted(plan.skipped)[:3]) + (", .." if len(plan.skipped) > 3 else "")
        more.append(f"{sum(plan.skipped.values())} calls of other kinds skipped ({names})")
    return "; ".join([counts, *more])


def check_whole(path, run):
    """The script as a whole answers the same rows as line by line."""
    script = "".join(f"{it}\n" for it in run.script)
    it = subprocess.run([path], input=script.encode(), stdout=subprocess.PIPE, stderr=subprocess.PIPE, check=False)
    if it.stdout.decode().splitlines() != run.rows:
        raise sessions.Stopped("ipcsh answers the whole script otherwise than line by line")


def judge(given):
    """The plan and the run of what the command line names."""
    opening, source = opening_of(given)
    with machine.trace(given.record, given.output) as file:
        records = lines.read([file] if file else given.files)
    limits = {**LIMITS, **(machine.limits() if given.record else {}), **by_kind(given.limit)}
    path = choosing.chosen("ipcsh_trace")
    progress = Progress(given)
    try:
        plan, run = run_of(sessions.Program(path), records, opening, source, limits, progress)
    finally:
        progress.end()
    if progress.was_cut:
        complain(f"after {given.seconds:g} s no further orders of the calls were tried")
    check_whole(path, run)
    return plan, run


def told_of(given, plan, run):
    if given.json:
        return map(json.dumps, verdict_objects(plan, run))
    return run.script if given.script else [*verdict_lines(plan, run), last_line(plan, run)]


def main():
    given = words()
    try:
        plan, run = judge(given)
    except choosing.NotBuilt as why:
        return why.status
    except (lines.BadFile, runs.BadLine, sessions.Stopped) as why:
        complain(why)
        return {lines.BadFile: 2, runs.BadLine: 3, sessions.Stopped: 70}[type(why)]
    told = told_of(given, plan, run)
    if not write_out("".join(f"{it}\n" for it in told).encode("utf-8", "surrogateescape")):
        complain("write failed")
        return 2
    return 1 if not given.script and any(it[0] is False for it in run.verdicts.values()) else 0


if __name__ == "__main__":
    sys.exit(main())
