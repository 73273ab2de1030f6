#!/usr/bin/env python3
"""The load `fanout` of bench/pools in Python: bench/languages/jobs.py hub|hand ROUNDS WORKERS ITEMS [MICROSECONDS]

Four callers, each of which queues an item, which queues ITEMS - 1 others, and waits for all of them, ROUNDS times. A
run works for so many microseconds (none: 0). `hub` is the package in python/, and `hand` a queue of jobs with threads,
which keeps the promises of items and no history. Prints how many runs there were in a second of the clock.
"""
import os
import queue
import sys
import threading
import time

ROOT = os.path.dirname(os.path.dirname(os.path.dirname(os.path.realpath(__file__))))
sys.path[:0] = [f"{ROOT}/tools", f"{ROOT}/python"]
import common

CALLERS = 4


def work(seconds):
    end = time.perf_counter() + seconds
    while seconds and time.perf_counter() < end:
        pass


class Hand:
    """The items of one caller: one that is pending is not queued again, and none has two runs at once."""

    def __init__(self, jobs, count, seconds):
        self.jobs, self.seconds = jobs, seconds
        self.states, self.open, self.changed = ["idle"] * count, 0, threading.Condition()

    def put(self, item):
        with self.changed:
            if self.states[item] == "idle":
                self.states[item] = "pending"
                self.open += 1
                self.jobs.put((self, item))
            elif self.states[item] == "running":
                self.states[item] = "again"
                self.open += 1

    def run(self, item):
        with self.changed:
            self.states[item] = "running"
        work(self.seconds)
        if item == 0:
            for other in range(1, len(self.states)):
                self.put(other)
        with self.changed:
            is_again, self.states[item] = self.states[item] == "again", "idle"
            if is_again:
                self.states[item] = "pending"
                self.jobs.put((self, item))
            self.open -= 1
            if self.open == 0:
                self.changed.notify_all()

    def round(self):
        self.put(0)
        with self.changed:
            self.changed.wait_for(lambda: self.open == 0)


def by_hand(workers, count, seconds):
    """The rounds of the callers by a pool."""
    jobs = queue.SimpleQueue()

    def serve():
        while True:
            group, item = jobs.get()
            group.run(item)

    for _ in range(workers):
        threading.Thread(target=serve, daemon=True).start()
    return [Hand(jobs, count, seconds).round for _ in range(CALLERS)]


def by_hub(workers, count, seconds):
    """The rounds of the callers by a hub, which is never shut down."""
    import cmwq
    options = cmwq.max_active(512, cpu_intensive=True)
    hub = cmwq.Hub(workers=workers, items=CALLERS * count, waits=CALLERS,
                   queues={str(number): options for number in range(CALLERS)})

    def round_of(number):
        own, items = hub.queue(str(number)), []

        def root(_):
            work(seconds)
            for other in items[1:]:
                other.queue()

        items += [own.item(root), *(own.item(lambda _: work(seconds)) for _ in range(count - 1))]

        def once():
            items[0].queue()
            own.drain()

        return once

    return [round_of(number) for number in range(CALLERS)]


def main():
    parser = common.Parser(__doc__)
    parser.add_argument("pool", choices=("hub", "hand"))
    for name in ("rounds", "workers", "items"):
        parser.add_argument(name, type=common.count)
    parser.add_argument("microseconds", type=common.count, nargs="?", default=0)
    asked = parser.parse_args()
    rounds = {"hub": by_hub, "hand": by_hand}[asked.pool](asked.workers, asked.items, asked.microseconds / 1e6)
    threads = [threading.Thread(target=lambda it=it: [it() for _ in range(asked.rounds)]) for it in rounds]
    begun = time.perf_counter()
    for it in threads:
        it.start()
    for it in threads:
        it.join()
    spent = time.perf_counter() - begun
    print(f"{CALLERS * asked.rounds * asked.items / spent:.0f}", flush=True)
    os._exit(0)  # the workers go on


if __name__ == "__main__":
    main()
