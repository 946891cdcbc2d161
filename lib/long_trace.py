"""Writes a trace of threads that take and give back one semaphore, as strace writes it where their calls overlap.

    long_trace.py SEED THREADS ROUNDS

Between the lines on which a call begins and ends lies its place, at a random time, and mostly near the first. Who waits is served in the order of
arrival, so that there is an order of the calls that answers each as the trace has it."""

import heapq
import random
import sys

CALL = "semop(0, [{sem_num=0, sem_op=%d, sem_flg=0}], 1"
FIRST = 100
# How long a call is on its way to its place, on average, where between its lines and before it 1 goes by.
ON_ITS_WAY = 0.02


class Threads:
    """The threads, the semaphore, who waits for it, and what is still to come."""

    def __init__(self, count, rounds):
        self.value, self.waiting, self.left, self.events = 1, [], {FIRST + it: 2 * rounds for it in range(count)}, []
        for thread in self.left:
            self.later(thread, self.begins, 0)

    def later(self, thread, what, now, mean=1):
        heapq.heappush(self.events, (now + random.expovariate(1) * mean, thread, what))

    def change(self, thread):
        """What the thread's next operation adds: it takes and gives back in turn."""
        return 1 if self.left[thread] % 2 else -1

    def begins(self, thread, now):
        print(f"{thread} {CALL % self.change(thread)} <unfinished ...>")
        self.later(thread, self.arrives, now, ON_ITS_WAY)

    def arrives(self, thread, now):
        if self.change(thread) < 0:
            self.waiting.append(thread)
        else:
            self.value += 1
            self.later(thread, self.ends, now)
        while self.waiting and self.value > 0:
            self.value -= 1
            self.later(self.waiting.pop(0), self.ends, now)

    def ends(self, thread, now):
        print(f"{thread} <... semop resumed>) = 0")
        self.left[thread] -= 1
        if self.left[thread]:
            self.later(thread, self.begins, now)

    def run(self):
        while self.events:
            now, thread, what = heapq.heappop(self.events)
            what(thread, now)


def main():
    seed, count, rounds = map(int, sys.argv[1:])
    random.seed(seed)
    print(f"{FIRST} semget(0x5, 1, IPC_CREAT|0600) = 0\n{FIRST} semctl(0, 0, SETVAL, 0x1) = 0")
    Threads(count, rounds).run()
    print(f"{FIRST} semctl(0, 0, GETVAL, NULL) = 1")


if __name__ == "__main__":
    main()
