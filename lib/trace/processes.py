"""The processes and threads of a trace, and the clients of a script that stand for the threads.

A thread is a client from its birth to its end. A client whose thread has ended is taken by another one only where all have been."""

import string

CLIENTS = 64
SYSTEM = "system"
# Process numbers that no process of a trace has: that of the client above, and that of a process whose number the trace doesn't tell.
SYSTEM_NUMBER, UNTOLD = 2**32 - 1, 2**32 - 2


def identity(creds):
    """Credentials as the language writes them. It has a saved user and group beside the effective ones, and no third."""
    saved = [next((one for one in (ids[2], ids[0]) if one != ids[1]), ids[1]) for ids in (creds.users, creds.groups_of_ids)]
    words = [str(creds.user), str(creds.group)]
    if creds.groups:
        words.append("groups=" + ",".join(map(str, sorted(set(creds.groups))[:32])))
    if creds.caps:
        words.append("caps=" + ",".join(sorted(creds.caps)))
    if saved != [creds.user, creds.group]:
        words.append(f"saved={saved[0]}:{saved[1]}")
    return " ".join(words)


class Process:
    """What the threads of a process share: its number, and by address what it has attached. `is_known` says that the trace has it and its parents
    from their starts, and `is_elsewhere` that it is in a pid namespace of its own, so that it is told other numbers."""

    def __init__(self, pid, is_known=False, is_elsewhere=False):
        self.number, self.is_known, self.is_elsewhere = pid or UNTOLD, is_known, is_elsewhere
        self.attached, self.alive, self.count, self.last_at, self.ended_at, self.bears_elsewhere, self.is_seen = {}, 0, 0, 0, 0, False, False


class Thread:
    """A thread: its number, its credentials, from where these are known, and which of them the script has told, as the language writes them. It
    needs its parent where the script begins it by a fork or a clone."""

    def __init__(self, pid, creds, source, process, parent=None):
        self.pid, self.creds, self.opening, self.source, self.process, self.parent = pid, creds, creds.copy(), source, process, parent
        self.told = parent.told if parent else identity(creds)
        self.client, self.is_needed, self.first_at, self.seen_at, self.last_at, self.ended_at = None, False, None, None, 0, None
        process.alive += 1
        process.count += 1

    def need(self):
        """Marks it and those that it needs."""
        thread = self
        while thread and not thread.is_needed:
            thread.is_needed, thread = True, thread.parent

    def __str__(self):
        if not self.pid:
            return "the process"
        return f"process {self.pid}" if self.pid == self.process.number else f"thread {self.pid} of process {self.process.number}"


class Client:
    """A client of the script: its name, and the threads that it stands for, one after the other."""

    def __init__(self, name):
        self.name, self.threads = name, []

    def take(self, thread):
        self.threads.append(thread)
        thread.client = self

    def is_free_at(self, place):
        """Whether its last thread has ended before a place in the trace."""
        return self.threads[-1].ended_at is not None and self.threads[-1].ended_at < place


class Clients:
    """All clients, of which there are at most 64, one of them `system` where it is needed."""

    def __init__(self, with_system):
        self.all, self.with_system, self.names, self.left_out = [], with_system, {SYSTEM}, set()

    def name_for(self, pid):
        base = f"p{pid}" if pid else "first"
        letters = ["", *string.ascii_lowercase[1:]]
        name = next((base + it for it in letters if base + it not in self.names), None)
        at = 1
        while name is None or len(name) > 16:
            name, at = (f"x{at}" if f"x{at}" not in self.names else None), at + 1
        return name

    def give(self, thread):
        """Gives a thread a client, where there is one and its parent has one."""
        if thread.parent and thread.parent.client is None:
            self.left_out.add(thread)
        elif len(self.all) < CLIENTS - self.with_system:
            self.all.append(Client(self.name_for(thread.pid)))
            self.names.add(self.all[-1].name)
            self.all[-1].take(thread)
        else:
            free = [it for it in self.all if it.is_free_at(thread.first_at)]
            if free:
                min(free, key=lambda it: it.threads[-1].ended_at).take(thread)
            else:
                self.left_out.add(thread)
