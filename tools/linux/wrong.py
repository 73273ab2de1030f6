"""Wrong models, in each of which something begins or ends too late. What a kernel was seen to do must refute each.

A model is a condition on a take that starts a run, or on an end that is done: where it holds, the model answers `held`
or `waiting` instead. So a wrong model differs from the program in the facts of a step, and nothing is known of what it
would do after that.
"""
import re

import scenarios


class Before:
    """The entries before a take or an end, and who makes it."""

    def __init__(self, played):
        self.flags = [line.split()[2] for line in played.head if line.startswith("wq ")]
        self.state, self.number, self.woken = scenarios.State(), {}, set()    # the last two by workers with a run
        self.who, self.call = "", []

    def enter(self, number, who, call, reply):
        self.state.enter(number, who, call, reply)
        if reply[0] == "started":
            self.number[who] = int(reply[1])
        elif reply[0] == "woke":
            self.woken.add(who)
        elif reply[0] in ("slept", "finished"):
            self.woken.discard(who)

    def runs(self, is_asleep, is_of_cpu=False):
        """The workers of the pool of this one, or of its CPU, whose runs sleep or are awake."""
        place = re.compile(r"w\d+" if is_of_cpu else r"w\d+[nh]")
        runs = self.state.runs.items()
        return {who for who, run in runs if run[2] == is_asleep and place.match(who)[0] == place.match(self.who)[0]}

    def intensive(self):
        """Those of CPU-intensive queues that are awake, in the pool of this one."""
        return {who for who in self.runs(False) if "i" in self.flags[int(self.state.runs[who][1])]}

    def open(self):
        """What is open, as the number, the item and the queue of each queueing."""
        state = self.state
        found = [(number, item, state.queue_of[item]) for item, number in state.unstarted.items()]
        return found + [(self.number[who], item, queue) for who, (item, queue, _) in state.runs.items()]

    def has_later(self, part):
        """Whether a queueing is open that came after the wait began, of the same item (1) or queue (2)."""
        of = self.state.waits[self.call[1]][1]
        return any(it[0] > int(self.call[1]) and it[part] == of for it in self.open())

    def has_booked(self):
        """Whether an item is booked for the queue for which this waits."""
        of = self.state.waits[self.call[1]][1]
        return any(self.state.queue_of[it] == of for it in self.state.booked)


# By what would be true in the model: the call that it puts off, or the wait whose end it puts off, and where.
MODELS = {
    "a run that sleeps holds up others": ("take", lambda it: it.runs(True)),
    "a run holds up the other pool of its CPU": ("take", lambda it: it.runs(False, True) - it.runs(False)),
    "a CPU-intensive run holds up others": ("take", lambda it: it.intensive() - it.woken),
    "a CPU-intensive run that slept and woke holds up others": ("take", lambda it: it.intensive() & it.woken),
    "a flush waits for what is queued later": ("flush", lambda it: it.has_later(2)),
    "a flush waits for booked items": ("flush", lambda it: it.has_booked()),
    "a flush_item waits for what is queued later": ("flush_item", lambda it: it.has_later(1)),
    "a drain waits for booked items": ("drain", lambda it: it.has_booked()),
}


def played_by(model, played):
    """A scenario as a wrong model plays it."""
    what, is_put_off = MODELS[model]
    before, entries = Before(played), []
    for number, (who, call, reply) in enumerate(played.entries):
        before.who, before.call, said = who, call, reply
        if reply[0] == "started" and what == "take" and is_put_off(before):
            said = ["held"]
        elif reply[0] == "done" and what == before.state.waits[call[1]][0] and is_put_off(before):
            said = ["waiting", "0"]
        entries.append((who, call, said))
        before.enter(number, who, call, reply)
    return scenarios.Played(played.head, entries)
