"""Loads of wide shapes: so many items are pending at a time, and then items are queued, started, finished, cancelled,
booked, fired and flushed at random.

Each load is a head, calls that make the items pending, and turns that leave as many pending as they found.
"""
import collections
import heapq
import random

ITEMS = (16, 256, 4096, 65535)

# CPUs, workers of a pool, and callers
SHAPES = ((1, 1, 1), (64, 64, 255))

QUEUE_OF_FLUSHES = 1

# at most
CALLS_OF_A_TURN = 6


class Loads:
    """What is pending, as far as the next calls need it: which items wait on each CPU, in their order, and which are
    booked for when."""

    def __init__(self, items, shape, room):
        self.cpus, self.workers, self.callers = shape
        self.items = items
        self.random = random.Random(items)
        self.entries = 0
        shape = f'shape {self.cpus} {self.workers} {self.callers} {items} {room}'
        self.lines = ['calls 3', shape, 'wq 512 -', 'wq 1 -']
        self.waiting = [collections.OrderedDict() for _ in range(self.cpus)]
        self.cpu_of = {}
        self.due, self.now, self.booked = [], 0, {}

    def call(self, line):
        self.lines.append(line)
        self.entries += 1
        return self.entries - 1

    def caller(self):
        return f'c{self.random.randrange(self.callers)}'

    def queue(self, item):
        cpu = item % self.cpus
        self.call(f'{self.caller()} queue {item} 0 {cpu}')
        self.waiting[cpu][item] = None

    def run_first(self, cpu):
        """The worker that is enlisted at first starts what waits first on its CPU, and ends it."""
        item, _ = self.waiting[cpu].popitem(last=False)
        self.call(f'w{cpu}n0 take')
        self.call(f'w{cpu}n0 finish')
        return item

    def delay(self, item, word):
        at = self.now + 1 + self.random.randrange(2 * self.items)
        self.booked[item] = at, self.entries
        heapq.heappush(self.due, (at, self.entries, item))
        self.call(f'{self.caller()} {word} {item} 0 {item % self.cpus} {at - self.now}')

    def fire_first(self):
        at, number, item = heapq.heappop(self.due)
        while self.booked.get(item) != (at, number):
            at, number, item = heapq.heappop(self.due)
        if at > self.now:
            self.call(f'c0 tick {at - self.now}')
            self.now = at
        self.call(f'{self.caller()} fire')
        del self.booked[item]
        self.waiting[item % self.cpus][item] = None
        return item


def pending(loads):
    """All items are queued; the first of a CPU runs and is queued again."""
    for item in range(loads.items):
        loads.queue(item)
    while True:
        loads.queue(loads.run_first(loads.random.randrange(min(loads.cpus, loads.items))))
        yield


def cancel(loads):
    """All items are queued; any of them is taken back and queued again."""
    for item in range(loads.items):
        loads.queue(item)
    while True:
        item = loads.random.randrange(loads.items)
        loads.call(f'{loads.caller()} cancel {item}')
        del loads.waiting[item % loads.cpus][item]
        loads.queue(item)
        yield


def booked(loads):
    """All items are booked; the first is fired, runs, and is booked again, and any other is booked anew."""
    for item in range(loads.items):
        loads.delay(item, 'delay')
    while True:
        item = loads.fire_first()
        loads.run_first(item % loads.cpus)
        loads.delay(item, 'delay')
        loads.delay(loads.random.randrange(loads.items), 'modify')
        yield


def flush(loads):
    """All items are queued; any caller flushes another queue, where nothing is open."""
    for item in range(loads.items):
        loads.queue(item)
    while True:
        caller = loads.caller()
        ticket = loads.call(f'{caller} flush {QUEUE_OF_FLUSHES}')
        loads.call(f'{caller} end {ticket}')
        yield


KINDS = {make.__name__: make for make in (pending, cancel, booked, flush)}


def files(kind, items, shape, turns, room):
    """The calls before so many turns, and with as many of these once more after them, and how many calls the latter
    have more."""
    loads = Loads(items, shape, room)
    turn = KINDS[kind](loads)
    for _ in range(turns):
        next(turn)
    short, before = '\n'.join(loads.lines) + '\n', loads.entries
    for _ in range(turns):
        next(turn)
    return short, '\n'.join(loads.lines) + '\n', loads.entries - before
