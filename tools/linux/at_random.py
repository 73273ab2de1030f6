"""Random scenarios, and the known ways in which a kernel differs from the program in them.

A scenario depends on its name alone. It has no call that the program refuses, and none by which a kernel is known to do
something else for long: an item is not taken back while a flush_item waits for its queueing, it is not modified during
its cancel_sync, and no pool has two queues that are freezable. Scenarios of examples/linux show what happens then.
"""
import random

import scenarios

STEPS = 30

# How many waits may be unended at once. A scenario in four has more than 15 flushes of a queue, of which the others are
# in overflow: it has more steps, of which most begin a flush. In half of these there are drains as well, which in the
# kernel also use up what is served.
MOST_WAITS, MANY_WAITS = 10, 24

# How many flushes of a queue are served at once, and which waits count as such: here, and in a kernel.
SERVED = 15
SERVED_KINDS = (("flush",), ("flush", "drain", "destroy"))

FLAGS = ("-", "-", "-", "h", "i", "hi", "f", "hf", "if")

# How often which kind of call is chosen.
OFTEN = {"end": 30, "wake": 8, "queue": 28, "delay": 7, "modify": 7, "cancel": 5, "tick": 5, "wait": 14, "set_max": 3,
         "freeze": 3}

OFTEN_OF_MANY = {**OFTEN, "end": 12, "wait": 70, "tick": 1, "set_max": 1, "freeze": 1}

# The same of the waits.
WAITS, WAITS_OF_MANY, WAITS_WITH_DRAINS = (4, 2, 1, 4, 3, 4), (40, 0, 0, 2, 1, 1), (40, 4, 0, 2, 1, 1)

# The scenarios of examples/linux after which known ways are called.
WAYS = ("again_at_once", "again_beside_others", "cancel_wakes_nobody", "modify_wakes_nobody",
        "cancel_sync_wakes_nobody", "flush_in_overflow", "flush_beside_a_drain")

TAKES_BACK = ("cancel", "modify", "cancel_sync")


def names(seed, count):
    return [f"random_{seed}_{it}" for it in range(count)]


def queues(chance):
    """The lines of the queues."""
    lines, freezable = [], set()
    for _ in range(chance.randint(1, 3)):
        flags = chance.choice(FLAGS)
        if "f" in flags:
            if ("h" in flags) in freezable:
                flags = flags.replace("f", "") or "-"
            freezable.add("h" in flags)
        lines.append(f"wq {chance.choice((1, 1, 1, 2, 2, 3, 5))} {flags}")
    return lines


class Maker:
    """Makes a scenario."""

    def __init__(self, program, name):
        self.chance = chance = random.Random(name)
        self.cpus, self.items = chance.randint(1, 3), chance.randint(2, 6)
        head = queues(chance)
        self.queues = len(head)
        self.many, self.drains = chance.random() < 0.25, chance.random() < 0.5
        self.talk = scenarios.Talk(program, [f"shape {self.cpus} 8 1 {self.items} 100000", *head])
        self.is_frozen = False
        # most items stay on one queue, so that they often run where they are queued again
        self.home = [chance.randrange(self.queues) for _ in range(self.items)]
        self.roams = chance.random() < 0.3

    def make(self):
        tries, steps = 0, 3 * STEPS if self.many else STEPS
        while self.talk.steps < steps and tries < 20 * steps:
            tries += 1
            line = self.line()
            if line and self.is_fit(line.split()):
                self.step(line)
        return self.talk.close()

    def step(self, line):
        reply = self.talk.step(line)
        if reply[0] in ("frozen", "thawed"):
            self.is_frozen = reply[0] == "frozen"
        while line.startswith("tick") and not self.draining_booked():
            if self.talk.step("fire")[0] == "nothing":
                break

    def line(self):
        """A random call, or none."""
        chance, runs = self.chance, self.talk.state.runs.values()
        awake = sorted(item for item, _, asleep in runs if not asleep)
        asleep = sorted(item for item, _, asleep in runs if asleep)
        item = chance.randrange(self.items)
        queue = chance.randrange(self.queues) if self.roams else self.home[item]
        cpu = chance.randrange(self.cpus)
        kind = chance.choices([*OFTEN], (OFTEN_OF_MANY if self.many else OFTEN).values())[0]
        if kind == "end":
            return f"{chance.choice(('sleep', 'finish', 'finish'))} {chance.choice(awake)}" if awake else ""
        if kind == "wake":
            return f"wake {chance.choice(asleep)}" if asleep else ""
        if kind == "tick":
            return f"tick {chance.randint(1, 2)}"
        if kind == "wait":
            often = WAITS if not self.many else WAITS_WITH_DRAINS if self.drains else WAITS_OF_MANY
            word = chance.choices(scenarios.WAITS, often)[0]
            queue = 0 if self.many else queue
            return f"{word} {queue if word in ('flush', 'drain', 'destroy') else item}"
        if kind == "set_max":
            return f"set_max {queue} {chance.choice((1, 1, 2, 3, 4))}"
        if kind == "freeze":
            return "thaw" if self.is_frozen else "freeze"
        ticks = f" {chance.choice((0, 0, 1, 2, 3))}" if kind in ("delay", "modify") else ""
        line = f"{kind} {item}" if kind == "cancel" else f"{kind} {item} {queue} {cpu}{ticks}"
        return f"by {chance.choice(awake)} {line}" if awake and chance.random() < 0.2 else line

    def draining_booked(self):
        state = self.talk.state
        return {it for it in state.booked if state.queue_of[it] in state.draining()}

    def is_fit(self, words):
        """Whether the program refuses no such call, and no kernel is known to do something else."""
        state, by = self.talk.state, None
        if words[0] == "by":
            by, words = words[1], words[2:]
        word, *numbers = words
        draining = state.draining()
        if word in scenarios.WAITS and len(state.waits) >= (MANY_WAITS if self.many else MOST_WAITS):
            return False
        if word in ("flush", "drain", "destroy", "set_max"):
            destroyed = state.gone | {call[1] for call in state.waits.values() if call[0] == "destroy"}
            booked = {state.queue_of[it] for it in state.booked}
            return numbers[0] not in destroyed and not (word == "destroy" and numbers[0] in booked)
        if word in ("queue", "delay", "modify"):
            item, queue = numbers[:2]
            runs = {run[0]: run[1] for run in state.runs.values()}
            if queue in state.gone or runs.get(item, queue) != queue:
                return False
            if queue in draining and (runs.get(by) != queue or numbers[3:] not in ([], ["0"])):
                return False
            if word == "modify" and (int(item) in state.cancelling() or item in self.draining_booked()):
                return False
        if word == "flush_delayed":
            return numbers[0] not in self.draining_booked()
        return word not in TAKES_BACK or not self.is_flushed(numbers[0])

    def is_flushed(self, item):
        """Whether a flush of the item waits for its queueing that has not started."""
        state = self.talk.state
        return item in state.unstarted and any(
            call[0] in ("flush_item", "flush_delayed") and call[1] == item and int(number) >= state.unstarted[item]
            for number, call in state.waits.items())


def make(program, name):
    return Maker(program, name).make()


def known_way(played, recorded, is_pending_in_cancel):
    """The scenario of examples/linux that shows the first difference, or None."""
    difference, _ = scenarios.first_difference(played, recorded, is_pending_in_cancel)
    number = int(difference.split()[0])
    ours = next((it for it in played.steps if it.number == number), None)
    theirs = next((it for it in recorded.steps if it.number == number), None)
    if not ours or not theirs:
        return None
    if ": started " in difference:
        return way_of_starts(ours, theirs)
    return way_of_flushes(played, ours, theirs) if ": done " in difference else None


def way_of_starts(ours, theirs):
    """The same of a step after which other runs start. There may be several of them."""
    word = ours.call.split()[1]
    more = [it for it in theirs.started if it not in ours.started]
    less = [it for it in ours.started if it not in theirs.started]
    again = [it for it in theirs.started if word == "finish" and [it[0]] == ours.ended]
    if again and not more and not less:
        # the item that ended has its worker again, which first had a barrier to execute: another one was faster
        return "again_beside_others" if again[0] != theirs.of_pool(again[0][1])[0] else None
    if any(it in more for it in again):
        # the item that ended has its worker again, before another that would have started there, or beside it
        pool = next(pool for item, pool in more if [item] == ours.ended)
        if all(it[1] == pool for it in more + less):
            return "again_at_once"
    if word in TAKES_BACK and less and not more:
        return f"{word}_wakes_nobody"
    return None


def way_of_flushes(played, ours, theirs):
    """The same of a step after which other flushes end: all of them were in overflow. The kernel ends more, because all
    in overflow get one colour, or fewer, because drains and destroys use up colours."""
    for ended, other, way, kinds in ((ours, theirs, "flush_in_overflow", SERVED_KINDS[0]),
                                     (theirs, ours, "flush_beside_a_drain", SERVED_KINDS[1])):
        others = [it[0] for it in other.done if it not in ended.done]
        if others and set(ended.done) <= set(other.done):
            return way if all(in_overflow(played, it, kinds) for it in others) else None
    return None


def in_overflow(played, ticket, kinds):
    """Whether a flush had to wait before it was served, if waits of these kinds for its queue are served as it is: more
    than are served began before it, and were unended."""
    calls = {str(it.number): it.call.split()[1:] for it in played.steps}
    done = {}
    for step in played.steps:
        done.update((number, step.number) for number, *_ in step.done)
    older = [it for it, call in calls.items()
             if call[0] in kinds and call[1:] == calls[ticket][1:] and int(it) < int(ticket)]
    return calls[ticket][0] == "flush" and sum(done.get(it, int(ticket) + 1) > int(ticket) for it in older) >= SERVED
