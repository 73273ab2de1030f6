"""The events that a log tells: each call and tracepoint, with the time in which it took place.

A line is `SINCE UNTIL WHO WHAT WORDS..`, of a call with ` = RETURNED`. Some lines are two events, as a call that waits
begins and ends; some belong to an event of another line, as an item becomes active where a run ends.
"""
import bisect
import copy

from scenarios import Broken

# How many words each call has, and each tracepoint: the item, and the CPU where it is queued or starts.
CALLS = {"queue": 3, "delay": 4, "modify": 4, "cancel": 1, "cancel_sync": 1, "flush": 1, "flush_item": 1, "drain": 1,
         "set_max": 2, "freeze": 0, "thaw": 0}
TRACEPOINTS = {"queue_work": 2, "activate_work": 1, "execute_start": 2, "execute_end": 1, "other_work": 1, "sleep": 1,
               "wake": 1}
WORDS = {**CALLS, **TRACEPOINTS}

# The calls that make an item pending, if only for a moment.
MARKS = ("queue", "delay", "modify", "cancel", "cancel_sync")

# What changes widths, and what else lets an item become active.
CHANGES = ("set_max", "thaw")
TAKING = ("cancel", "cancel_sync", "modify")
LEAVING = (*CHANGES, *TAKING, "finish")
WIDTHS = ("set_max", "freeze", "thaw")

# Known differences of calls that overlap.
TWO_STEPS, TAKEN_OFF = "pending before it is queued", "pending while it is cancelled"
ONE_CPU = "a width on one CPU after the other"

# One that examples/linux shows.
AGAIN_BESIDE = "again_beside_others"


class Event:
    """What took place once, at some time from `low` to `high`, and later than another event."""

    def __init__(self, kind, low, high, who, *words, returned=None, later_than=None):
        self.kind, self.low, self.high, self.who, self.words = kind, low, high, who, words
        self.returned, self.after, self.number = returned, later_than, None
        self.run = None             # the item whose run makes the call
        self.cpus = ()              # where it changes a width
        self.cpu_seen, self.is_active, self.activated = None, False, []
        self.is_among_others = False    # which of some calls that overlap made active what they did isn't known
        self.is_old, self.touches = False, frozenset()
        self.is_again = False       # a start by the worker that ended a run of the item right before
        self.is_asleep = False      # a start that may come early, and then sleeps until it was seen
        self.is_eager = self.is_at_its_time = False
        self.known_as = None        # the known difference by which it may be left out
        self.early_until = 0        # by which it may come so much earlier than it did

    def is_part_of(self, change):
        """Whether it is a change of a width on one CPU, of a change on all."""
        return int(self.number) == change.number and self.cpus != change.cpus

    def text(self):
        what = " ".join(map(str, (self.kind, *self.words)))
        answered = "" if self.returned is None else f" = {self.returned}"
        return f"{self.who} {what}{answered}, from {self.low} to {self.high}"


class Line:
    """A line of a log."""

    def __init__(self, text):
        told, _, returned = text.partition(" = ")
        try:
            since, until, self.who, self.what, *words = told.split()
            self.since, self.until, self.words = int(since), int(until), tuple(map(int, words))
            self.returned = None if returned.strip() in ("", "-") else int(returned)
            is_known = len(words) == WORDS[self.what] and self.since <= self.until
        except (KeyError, ValueError):
            is_known = False
        if not is_known:
            raise Broken(f"not a line of a log: {text}")


class Log:
    """What a log says: the lines of the shape and the queues, and the events, ordered by their latest times."""

    def __init__(self, lines, shape_of, is_old=False):
        self.head, told = [], []
        for line in filter(None, map(str.strip, lines)):
            if line.split()[0] in ("calls", "shape", "wq"):
                self.head.append(line)
            else:
                told.append(Line(line))
        self.shape, self.is_old = shape_of(self.head), is_old
        self.events, self.queued = [], {}
        self.calls = {}             # of each thread, in their order: when they begin, and (when one ends, event)
        self.last, self.others = {}, {}     # the last tracepoint of each thread, and after which end it did other work
        self.runs = {}              # the start or the end of a run that each worker had last
        self.queues = {}            # of each item that is ever queued: always the same
        for line in told:
            self.check(line)
        for line in sorted(told, key=lambda it: it.until if it.what == "execute_start" else it.since):
            if line.what in CALLS:
                self.call(line)
            else:
                getattr(self, line.what)(line)
                self.last[line.who] = line
        for item in self.queues:
            self.known([it for it in self.events if it.kind in MARKS and it.words[0] == item])
        self.events.sort(key=lambda it: (it.high, it.low))
        self.join()
        for number, it in enumerate(self.events):
            it.number, it.activated = number, sorted(it.activated)
            it.cpus = range(self.shape.cpus)
            it.touches = frozenset(self.touched(it))

    def add(self, *args, **more):
        self.events.append(Event(*args, **more))
        self.events[-1].is_old = self.is_old
        return self.events[-1]

    def check(self, line):
        """Whether the numbers of a line are those of the shape."""
        shape, words = self.shape, line.words
        is_of_queue = line.what in ("flush", "drain", "set_max")
        most = [len(shape.widths) if is_of_queue else shape.items]
        most += [len(shape.widths), shape.cpus] if len(words) > 2 else [shape.cpus] * (not is_of_queue)
        kind, number = line.who[0], line.who[1:]
        # the last caller is the clock of the history
        is_thread = kind in "ctw" and number.isdigit() and not (kind == "c" and int(number) >= shape.callers - 1)
        if any(not 0 <= it < limit for it, limit in zip(words, most)) or not is_thread:
            words = " ".join(map(str, words))
            raise Broken(f"a line has numbers that the shape has not: {line.who} {line.what} {words}")

    @staticmethod
    def known(calls):
        """Notes which calls of an item may have returned false only because of others that went on then: an item is
        pending before a call has queued it, and while a cancel looks for it."""
        going_on = []
        for call in sorted(calls, key=lambda it: it.low):
            going_on = [it for it in going_on if it.high > call.low] + [call]
            for one in going_on[:-1]:
                for it, other in ((one, call), (call, one)):
                    if it.kind in ("queue", "delay") and it.returned == 0:
                        if other.kind in ("cancel", "cancel_sync"):
                            it.known_as = TAKEN_OFF
                        elif other.kind == "modify" or other.returned:
                            it.known_as = TWO_STEPS

    def join(self):
        """While a set_max or thaw goes on, others may make active what it allows, or it what they do; and what they
        take back may have become active before, or not."""
        last = sorted((it for it in self.events if it.kind in LEAVING), key=lambda it: it.low)
        changes, found, first = [it for it in last if it.kind in CHANGES], [], 0
        for change in changes:
            while last[first].high < change.low and first < len(last) - 1:
                first += 1
            for it in last[first:]:
                if it.low > change.high:
                    break
                if it is not change and it.high >= change.low and self.queues_of(it) & self.queues_of(change):
                    found.append((change, it))
        allowed = {it: list(it.activated) for pair in found for it in pair}
        for change, it in found:
            allowed[change] += [*it.activated, *(it.words[:1] if it.kind in TAKING else ())]
            allowed[it] += change.activated
        for it, items in allowed.items():
            it.activated, it.is_among_others = items, True

    def queues_of(self, event):
        """The queues of which an event may make something active."""
        if event.kind in CHANGES:
            return {event.words[0]} if event.words else {*self.shape.freezable}
        return {self.queues.get(event.words[0])}

    # --- calls ---

    def call(self, line):
        of = (line.who, *line.words)
        if line.what in ("flush", "drain"):
            # from its beginning on it waits, and for the least; and that it goes on is seen by nobody else
            call = self.add(line.what, line.since, line.since, *of)
            call.is_at_its_time = True
            self.add({"flush": "flushed", "drain": "drained"}[line.what], line.until, line.until, *of, later_than=call)
        else:
            call = self.add(line.what, line.since, line.until, *of, returned=line.returned)
            if line.what == "flush_item" and line.returned:
                self.add("flushed", line.until, line.until, *of, later_than=call)
            elif line.what == "cancel_sync":
                self.add("cancelled", line.since, line.until, *of, later_than=call)
            # what changes nothing but what itself waits for comes as soon as it may
            did_nothing = line.returned == 0 and line.what in ("queue", "delay", "cancel")
            call.is_eager = did_nothing or line.what == "flush_item"
        if line.what in ("queue", "delay", "modify") and self.queues.setdefault(*line.words[:2]) != line.words[1]:
            raise Broken(f"item {line.words[0]} is queued on two queues")
        run = self.runs.get(line.who)
        call.run = run.words[0] if run and run.kind == "start" else None
        begun, calls = self.calls.setdefault(line.who, ([], []))
        begun.append(line.since)
        calls.append((line.until, call))

    def call_at(self, who, time):
        """The call of a thread that goes on at a time, if one does."""
        begun, calls = self.calls.get(who, ((), ()))
        at = bisect.bisect_right(begun, time) - 1
        return calls[at][1] if at >= 0 and time <= calls[at][0] else None

    # --- tracepoints ---

    def queue_work(self, line):
        item, cpu = line.words
        call = self.call_at(line.who, line.since)
        if line.who[0] == "t":
            call = self.add("fire", line.since, line.since, line.who, item)
        elif not call or call.kind not in ("queue", "delay", "modify") or call.words[0] != item:
            raise Broken(f"item {item} is queued at {line.since}, which no call of {line.who} did")
        call.high, call.cpu_seen = line.since, cpu
        self.queued[line.who] = call

    def activate_work(self, line):
        item, = line.words
        last, call = self.last.get(line.who), self.call_at(line.who, line.since)
        if last and last.what == "queue_work" and last.words[0] == item and call in (None, self.queued[line.who]):
            self.queued[line.who].is_active = True
        elif call:
            # as 6.1 takes back an inactive item, it makes it active for a moment
            if call.kind in ("set_max", "thaw") or call.words[0] != item:
                call.activated.append(item)
        elif last and last.what == "execute_end":
            self.runs[line.who].activated.append(item)
        else:
            raise Broken(f"item {item} is made active at {line.since} by {line.who}, which does nothing")

    def execute_start(self, line):
        item, cpu = line.words
        before = self.runs.get(line.who)
        if before and before.kind == "start":
            raise Broken(f"{line.who} starts item {item} at {line.until}, and still runs item {before.words[0]}")
        queue = self.queues.get(item)
        if queue is None:
            raise Broken(f"item {item} runs, and was never queued")
        is_again, has_other = before and before.words[0] == item, before and self.others.get(line.who) is before
        low = before.high if is_again and has_other else line.since
        start = self.add("start", low, line.until, line.who, item, self.shape.pool(queue, cpu), later_than=before)
        self.runs[line.who] = start
        start.is_again = bool(is_again) and (has_other or line.since <= before.high)
        if is_again and has_other:
            # the worker has the item, and first ends a wait for the run before: another worker may be faster
            start.early_until, start.is_asleep = line.since, True
            self.add("wake", line.until, line.until, line.who, item, later_than=start)
            self.events[-1].is_at_its_time = True

    def run_of(self, line):
        """The start of the run of which a line tells."""
        before = self.runs.get(line.who)
        if not before or before.kind != "start" or before.words[:1] != line.words:
            raise Broken(f"{line.who} runs no item {line.words[0]}, of which it tells {line.what} at {line.since}")
        return before

    def execute_end(self, line):
        before = self.run_of(line)
        self.runs[line.who] = self.add("finish", line.since, line.until, line.who, *line.words, later_than=before)

    def other_work(self, line):
        self.others[line.who] = self.runs.get(line.who)

    def sleep(self, line):
        self.add(line.what, line.since, line.since, line.who, *line.words, later_than=self.run_of(line))
        self.events[-1].is_at_its_time = True

    wake = sleep

    def parts(self, change):
        """A change of a width as one event for each CPU."""
        for cpu in change.cpus:
            part = copy.copy(change)
            part.cpus, part.number, part.is_among_others = (cpu,), change.number + cpu / 1000, True
            part.touches = frozenset(self.touched(part))
            yield part

    # --- what concerns which ---

    def touched(self, event):
        """What an event looks at or changes: items, the counts of a queue on a CPU, and pools."""
        kind, words = event.kind, event.words
        cpus = event.cpus if kind in WIDTHS else range(self.shape.cpus)
        if kind in ("freeze", "thaw"):
            yield from ((what, *at) for of in self.shape.freezable for cpu in cpus
                        for what, at in (("pool", (self.shape.pool(of, cpu),)), ("count", (of, cpu))))
            return
        if kind in ("flush", "drain", "flushed", "drained", "set_max"):
            of = words[0] if event.after is None or event.after.kind != "flush_item" else self.queues.get(words[0])
        else:
            yield "item", words[0]
            of = self.queues.get(words[0])
        if kind in ("start", "sleep", "wake"):
            yield "pool", words[1] if kind == "start" else event.after.words[1]
        elif kind == "finish":
            yield from (("pool", event.after.words[1]), ("count", of, event.after.words[1] // 2))
        elif kind in ("flush_item", "cancelled") or event.is_eager or of is None:
            return
        elif kind in ("queue", "delay", "fire"):
            for cpu in () if event.cpu_seen is None else (event.cpu_seen,):
                yield from (("pool", self.shape.pool(of, cpu)), ("count", of, cpu))
        else:
            for cpu in cpus:
                yield from (("pool", self.shape.pool(of, cpu)), ("count", of, cpu))
