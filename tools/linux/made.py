"""Logs as of a kernel under load, made by the rules."""
import random

import flat
from events import Event

# The queues of load.c, and its items: the queue of each, and whether it is delayed, or flushed.
HEAD = ("calls 3", "shape 2 64 5 14 1000000", "wq 1 i", "wq 2 i", "wq 2 h", "wq 3 f")
ITEMS = ((0, ""), (0, ""), (0, "flushed"), (1, ""), (1, "delayed"), (1, "delayed"), (1, "flushed"), (2, ""), (2, ""),
         (2, "flushed"), (3, ""), (3, "delayed"), (3, "delayed"), (3, "flushed"))
DRAINED, CHANGED = (0, 2), (1, 2, 3)

# How far from an event what is told of it may be.
NEAR = 60

CALLERS = 4


class Maker:
    """Makes a log of random calls by threads and runs."""

    def __init__(self, seed):
        self.chance = random.Random(f"made {seed}")
        self.state = flat.State(flat.Shape(HEAD))
        self.now, self.lines, self.number = 1000, [], 0
        self.told = {}                              # when the last line of a thread ends
        self.free = {f"c{it}" for it in range(CALLERS)}
        self.waits = []                             # (who, when it began, its words, what it returns, event)
        self.gates = [0] * 4                        # until when threads queue on a queue, or it drains
        self.worker_of = {}                         # by the item that runs
        self.freezer = None                         # who froze the system

    def make(self, steps):
        """The lines of a log with so many steps of calls."""
        while steps or self.waits or self.freezer or not self.state.is_idle():
            self.now += self.chance.randint(20, 100)
            steps -= bool(steps)
            for act in self.chance.sample((self.start, self.finish, self.turn, self.fire, self.end, self.thaw), 6):
                act()
            free = [it for it in sorted(self.free) if self.is_ready(it) and it != self.freezer]
            if steps and free and self.chance.random() < 0.7:
                self.call(self.chance.choice(free), None)
            for item, who in sorted(self.worker_of.items()):
                if steps and self.is_ready(who) and not self.state.runs[item][3] and self.chance.random() < 0.05:
                    self.call(who, item)
        return [*HEAD, *self.lines]

    def is_ready(self, who):
        return self.told.get(who, 0) < self.now - 2

    def since(self, who):
        return max(self.told.get(who, 0) + 1, self.now - self.chance.randint(1, NEAR))

    def until(self, who):
        self.told[who] = self.now + self.chance.randint(2, NEAR)
        return self.told[who]

    def line(self, since, until, who, *words):
        self.lines.append(f"{since} {until} {who} {' '.join(map(str, words))}")

    def event(self, kind, *words, returned=None, item=None, later_than=None):
        """An event that happens now. Whether an item is queued by it, where and how, is as the rules say."""
        self.number, self.now = self.number + 1, self.now + self.chance.randint(4, 9)
        event = Event(kind, self.now, self.now, "", *words, returned=returned, later_than=later_than)
        event.number, event.run, event.cpus = self.number, item, range(self.state.shape.cpus)
        return event

    def queues(self, event, who, item, queue, cpu):
        """Tells how a queueing is opened, and makes the event of it so."""
        run, state = self.state.runs[item], self.state
        if event.kind == "modify" and state.is_pending(item):
            state = state.copy()
            state.take_back(item)
        event.cpu_seen = run[2] if run else cpu
        place = state.place(queue, event.cpu_seen)
        event.is_active = not state.inactive[place] and state.active[place] < state.width(queue, event.cpu_seen)
        self.line(self.now, self.now, who, "queue_work", item, event.cpu_seen)
        if event.is_active:
            self.line(self.now + 1, self.now + 1, who, "activate_work", item)

    def happens(self, event, who):
        """Whether an event may happen. If so, what it makes active is told."""
        new = flat.DO[event.kind](self.state, event)
        if new is None:
            return False
        for it in new.activated if new is not self.state else ():
            time = self.now - (event.kind == "modify")      # it takes its item off before it queues it
            self.line(time, time, who, "activate_work", it)
        self.state = new
        return True

    # --- calls ---

    def call(self, who, run):
        item = self.chance.randrange(len(ITEMS))
        queue, kind = ITEMS[item]
        by_thread = run is None
        words = self.chance.choices(
            ("queue", "delay", "cancel", "flush_item", "cancel_sync", "flush", "drain", "set_max", "freeze"),
            (40, 15, 10, *(it * by_thread for it in (5, 5, 3, 3, 3, 2))))[0]
        if words in ("cancel", "cancel_sync") and kind == "flushed" or words == "flush_item" and kind != "flushed":
            words = "queue"
        if words == "delay" and kind != "delayed" or words == "queue" and kind == "delayed":
            words = "delay" if kind == "delayed" else "queue"
        if words == "delay" and self.chance.random() < 0.4:
            words = "modify"
        since = self.since(who)
        if words in ("queue", "delay", "modify"):
            if queue in DRAINED and (self.gates[queue] is None or self.gates[queue] >= since) and by_thread:
                return
            if queue in DRAINED and not by_thread and ITEMS[run][0] != queue:
                return
            self.queue(since, who, run, words, item, queue)
        elif words in ("flush", "drain"):
            self.wait(since, who, words, queue if words == "flush" else self.chance.choice(DRAINED))
        elif words == "set_max":
            self.tell(since, who, self.event(words, self.chance.choice(CHANGED), self.chance.randint(1, 4)))
        elif words == "freeze":
            if not self.freezer:
                self.freezer = who
                self.tell(since, who, self.event(words))
        elif words == "cancel":
            self.tell(since, who, self.event(words, item, returned=int(self.state.is_pending(item))))
        else:
            is_open = bool(self.state.open_of_item(item))
            self.wait(since, who, words, item, int(self.state.is_pending(item) if words == "cancel_sync" else is_open))

    def tell(self, since, who, event):
        self.happens(event, who)
        self.line(since, self.until(who), who, event.kind, *event.words, "=",
                  "-" if event.returned is None else event.returned)

    def queue(self, since, who, run, kind, item, queue):
        cpu, more = self.chance.randrange(2), [self.chance.randrange(4)] * (kind != "queue")
        is_pending, is_taken = self.state.is_pending(item), self.state.cancels[item]
        returned = int(is_pending and not is_taken if kind == "modify" else not (is_pending or is_taken))
        event = self.event(kind, item, queue, cpu, *more, returned=returned, item=run)
        if not (is_taken or (is_pending and kind != "modify")) and not any(more):
            self.queues(event, who, item, queue, cpu)
        self.tell(since, who, event)
        if self.gates[queue] is not None:
            self.gates[queue] = max(self.gates[queue], self.told[who])

    def wait(self, since, who, kind, of, returned=None):
        if kind == "drain":
            if self.gates[of] is None or self.gates[of] >= since:
                return
            self.gates[of] = None
        event = self.event(kind, of, returned=returned)
        self.happens(event, who)
        self.told[who] = self.now
        if kind == "flush_item" and not returned:
            self.line(since, self.until(who), who, kind, of, "= 0")
            return
        self.free.discard(who)
        self.waits.append((who, since, kind, of, returned, event))

    # --- what goes on of itself ---

    def thaw(self):
        if self.freezer and self.is_ready(self.freezer) and self.chance.random() < 0.2:
            since = self.since(self.freezer)
            self.tell(since, self.freezer, self.event("thaw"))
            self.freezer = None

    def end(self):
        for wait in [*self.waits]:
            who, since, kind, of, returned, event = wait
            ends = {"drain": "drained", "cancel_sync": "cancelled"}.get(kind, "flushed")
            if self.is_ready(who) and self.happens(self.event(ends, of, later_than=event), who):
                self.waits.remove(wait)
                self.free.add(who)
                self.line(since, self.until(who), who, kind, of, "=", "-" if returned is None else returned)
                if kind == "drain":
                    self.gates[of] = self.told[who]

    def fire(self):
        booked = [it for it, of in enumerate(self.state.booked) if of]
        if booked and self.chance.random() < 0.3:
            item = self.chance.choice(booked)
            event = self.event("fire", item)
            timer = f"t{self.state.booked[item][1]}"
            self.queues(event, timer, item, *self.state.booked[item])
            self.happens(event, timer)

    def start(self):
        for pool in range(4):
            item = self.state.next_of(pool)
            if item is None or self.chance.random() < 0.4:
                continue
            who = next(name for name in (f"w{it}" for it in range(99))
                       if self.told.get(name, 0) < self.now - 2 and name not in self.worker_of.values())
            if self.happens(self.event("start", item, pool), who):
                self.worker_of[item] = who
                self.line(self.since(who), self.until(who), who, "execute_start", item, pool // 2)

    def ready_runs(self):
        return [(item, who) for item, who in sorted(self.worker_of.items()) if self.is_ready(who)]

    def finish(self):
        for item, who in self.ready_runs():
            if not self.state.runs[item][3] and self.chance.random() < 0.3:
                since = self.since(who)
                self.happens(self.event("finish", item), who)
                del self.worker_of[item]
                self.line(since, self.until(who), who, "execute_end", item)

    def turn(self):
        for item, who in self.ready_runs():
            if ITEMS[item][0] >= 2 and self.chance.random() < 0.4:
                kind = "wake" if self.state.runs[item][3] else "sleep"
                self.happens(self.event(kind, item), who)
                self.told[who] = self.now
                self.line(self.now, self.now, who, kind, item)
