"""Who waits at the end of a run, as its rows say."""

import re

# A row of a call that begins to wait, and one of a wait that ends; no other says anything of waits.
ROW = re.compile(rb"^([0-9]+)\.(?:0 (\w+) waits$|[1-9][0-9]* (\w+) )", re.M)


class Waiting:
    """The clients whose call waits, each with the event since which it does."""

    def __init__(self):
        self.since, self.rest = {}, b""

    def seen(self, parts):
        """The parts of the rows as they come, which end anywhere."""
        for part in parts:
            whole, end, self.rest = (self.rest + part).rpartition(b"\n")
            for it in ROW.finditer(whole + end):
                if it[2]:
                    self.since[it[2].decode()] = int(it[1])
                else:
                    self.since.pop(it[3].decode(), None)
            yield part

    def told(self):
        """A line for each that waits."""
        return [f"at the end {name} waits, since event {event}" for name, event in self.since.items()]
