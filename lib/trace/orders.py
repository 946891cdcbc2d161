"""Which of the orders that a trace allows the kernel's answers follow.

Of a call that begins on one line and ends on a later one a trace doesn't tell when the kernel did it. So each of these is done where it begins, and
where a call is then answered otherwise, others are tried, each by a run; the program judges them."""

from bisect import bisect_left, bisect_right, insort
from itertools import islice

import kernel
from calls import kind_of
from runs import Otherwise, Run, event, events

# So many runs at most, and one more for each call.
RUNS = 400
# After so many runs that bring nothing the call is accepted as otherwise.
PATIENCE = 60
# How many of the steps that may be done elsewhere are tried so, those that begin last first.
NEAR = 16
# In how many places, nearest and last, each of them is tried before the next of them.
FEW = 8
# A run is kept, to go back to, each time after so many events, and so often.
EVERY, KEPT = 64, 48


class Order:
    """The events of steps in their order, which changes."""

    def __init__(self, steps):
        self.numbers, self.events = {it: at for at, it in enumerate(steps)}, events(steps)
        self.floating = sorted((it for it in steps if it.floats), key=lambda it: -it.since)

    def move(self, step, position):
        """Puts a step elsewhere, and tells from which event on the order is another one."""
        before = [event(self.numbers[step], step, is_end) for is_end in (0, 1)]
        step.position = position
        after = [event(self.numbers[step], step, is_end) for is_end in (0, 1)]
        changed = [it for it in zip(before, after) if it[0] != it[1]]
        first = len(self.events)
        for was, now in changed:
            first = min(first, bisect_left(self.events, min(was, now)))
            del self.events[bisect_left(self.events, was)]
            insort(self.events, now)
        return first

    def between(self, since, until):
        """The steps that are done between two places."""
        found = self.events[bisect_right(self.events, (since, 2)) : bisect_left(self.events, (until, -1))]
        return [step for _, is_end, _, step in found if not is_end]

    def before(self, until):
        """The steps that begin before a place and may be done elsewhere, those that begin last first."""
        return self.floating[bisect_right(self.floating, -until, key=lambda it: -it.since) :]


class KeptRun:
    """A run that goes on, where its order has changed, from where it was kept before that. `kept` has each time how many events were done."""

    def __init__(self, program, plan, limits, accepted):
        self.program, self.run, self.order = program, Run(program, plan, limits, accepted), Order(plan.steps)
        self.at, self.kept = 0, []

    def first_otherwise(self):
        """The first call that is answered otherwise, but for those that are accepted so; None where there is none."""
        if not self.kept:
            self.run.head()
        try:
            while self.at < len(self.order.events):
                self.keep()
                _, is_end, _, step = self.order.events[self.at]
                self.at += 1
                self.run.do(step, is_end)
        except Otherwise as it:
            return it.step
        return None

    def keep(self):
        """Keeps the run; of what is long behind less and less."""
        if self.kept and self.at < self.kept[-1][0] + EVERY:
            return
        self.kept.append((self.at, self.run.place()))
        if len(self.kept) > KEPT:
            self.kept[: KEPT // 2] = self.kept[: KEPT // 2 : 2]

    def move(self, step, position):
        first = self.order.move(step, position)
        if first >= self.at:
            return
        while self.kept[-1][0] > first:
            self.kept.pop()
        self.at, place = self.kept[-1]
        self.run.back(place)

    def end(self):
        self.run.session.end()
        self.program.end()


def object_of(step):
    """The kind of the object that a step is of, and its identifier; None in the place of one that may be any."""
    record = step.record
    if step.kind != "call":
        return None, None
    ident = next(iter(record.words), None) if record.name not in kernel.KINDS and record.name != "shmdt" else None
    return kind_of(record), ident


def meet(one, other):
    """Whether it may matter which of two steps is done first."""
    return all(it is None or another is None or it == another for it, another in zip(object_of(one), object_of(other)))


def places(order, step):
    """Where a step may be done among those that it meets: the nearest few places, the last few, and then the others."""
    others = sorted({it.position for it in order.between(step.since, step.until) if it is not step and it.is_seen and meet(step, it)})
    behind, first = [it + 0.1 for it in others], [it - 0.1 for it in others[:1] if it - 0.1 > step.since]
    few = behind[:FEW] + behind[FEW:][: -FEW - 1 : -1] + first
    return tuple([it for it in some if it != step.position] for some in (few, behind[FEW:-FEW]))


def moves(order, step):
    """Other places of the step itself, and of those before it that it may depend on: first of those that end after it, and may thus have been done
    too early, and then of those that begin last."""
    before = [it for it in order.before(step.until) if it is not step]
    later = [it for it in before if it.until > step.until and meet(it, step)]
    nearest = (it for it in before if it.until <= step.until and meet(it, step))
    chosen = ([step] if step.floats else []) + later + list(islice(nearest, NEAR))
    found = [(it, *places(order, it)) for it in chosen]
    return [(it, position) for it, few, _ in found for position in few] + [(it, position) for it, _, more in found for position in more]


class Search:
    """A search for places by which the calls are as defined: it goes on from each move by which the first call that is otherwise comes later, and
    back where none does."""

    def __init__(self, program, plan, limits, progress):
        self.plan, self.accepted, self.progress = plan, set(), progress
        self.run, self.most, self.tried = KeptRun(program, plan, limits, self.accepted), RUNS + len(plan.steps), 0

    def goes_on(self):
        return self.tried < self.most and self.progress.goes_on()

    def first(self):
        self.tried += 1
        self.progress.tell(self.run.at, len(self.run.order.events), self.tried)
        return self.run.first_otherwise()

    def positions(self):
        return [it.position for it in self.plan.steps]

    def settle(self, found):
        """Places the steps so that the first call that is otherwise comes as late as is found so, and answers that call, None where there is none."""
        ways, best, patience = [(found, None, iter(moves(self.run.order, found)))], (found, self.positions()), PATIENCE
        while ways and patience > 0 and self.goes_on():
            reached, back, left = ways[-1]
            step, position = next(left, (None, None))
            if step is None:
                ways.pop()
                if back:
                    self.run.move(*back)
                continue
            before, patience = step.position, patience - 1
            self.run.move(step, position)
            now = self.first()
            if now is None:
                return None
            if now.until <= reached.until:
                self.run.move(step, before)
                continue
            ways.append((now, (step, before), iter(moves(self.run.order, now))))
            if now.until > best[0].until:
                best, patience = (now, self.positions()), PATIENCE
        for step, position in zip(self.plan.steps, best[1]):
            if step.position != position:
                self.run.move(step, position)
        return best[0]


def ordered(program, plan, limits, progress):
    """Places all steps so that as many calls as can be found so are answered as defined; a call that stays otherwise is accepted so."""
    search = Search(program, plan, limits, progress)
    try:
        found = search.first()
        while found is not None and search.goes_on():
            found = search.settle(found)
            if found is not None:
                search.accepted.add(found)
                found = search.first()
    finally:
        search.run.end()
