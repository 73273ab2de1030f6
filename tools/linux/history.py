"""An order of events as calls of `cmwq step`, and whether the program answers them as the kernel did."""
import subprocess
import tempfile

import scenarios
from scenarios import Broken

# Known differences, by the scenarios of examples/linux that show them.
OLD_MODIFY, AGAIN = "modify_in_cancel_sync", "again_at_once"

# What the program answers to calls that return nothing.
DONE = {"finish": "finished", "sleep": "slept", "wake": "woke", "set_max": "width", "freeze": "frozen",
        "thaw": "thawed"}


class Calls:
    """The calls of an order. A timer expires at a tick of its own: how late a kernel serves one is not compared."""

    def __init__(self, log, order):
        self.log, self.lines, self.wanted = log, [], []        # `wanted` has the event of each call, or None
        self.clock = f"c{log.shape.callers - 1}"
        self.enlisted, self.worker, self.ticket = {}, {}, {}
        self.ticks, self.awake, self.known = ticks_of(order), {}, []
        for event in order:
            getattr(self, event.kind, self.call)(event)

    def say(self, event, who, *words):
        self.lines.append(f"{who} {' '.join(map(str, words))}")
        self.wanted.append(event)

    def call(self, event):
        self.ticket[event.number] = len(self.lines)
        who = event.who if event.run is None else self.worker[event.run]
        self.say(event, who, event.kind, *event.words)

    def delay(self, event):
        who = event.who if event.run is None else self.worker[event.run]
        self.say(event, who, event.kind, *event.words[:3], self.ticks.get(event.number, event.words[3]))

    modify = delay

    def fire(self, event):
        self.say(None, self.clock, "tick", 1)
        self.say(event, self.clock, "fire")

    def flushed(self, event):
        self.say(event, event.who, "end", self.ticket[event.after.number])

    drained = cancelled = flushed

    def start(self, event):
        item, pool = event.words
        name = f"w{pool // 2}{'nh'[pool % 2]}"
        busy = {it for it in self.worker.values() if it.startswith(name)}
        free = next(it for it in range(len(busy) + 1) if f"{name}{it}" not in busy)
        self.worker[item] = f"{name}{free}"
        # the worker of the item's last run starts it beside runs that are awake; here they sleep meanwhile
        holding = [self.worker[it] for it, at in self.awake.items() if at == pool]
        self.known += [AGAIN] * bool(holding)
        for who in holding:
            self.say(None, who, "sleep")
        self.say(event, self.worker[item], "take")
        for who in holding:
            self.say(None, who, "wake")
        if event.is_asleep:
            self.say(None, self.worker[item], "sleep")
        else:
            self.woke(item, pool)

    def woke(self, item, pool):
        if not self.log.shape.is_intensive[self.log.queues[item]]:
            self.awake[item] = pool

    def sleep(self, event):
        self.awake.pop(event.words[0], None)
        self.say(event, self.worker[event.words[0]], event.kind)

    def wake(self, event):
        self.woke(event.words[0], event.after.words[1])
        self.say(event, self.worker[event.words[0]], event.kind)

    def finish(self, event):
        self.awake.pop(event.words[0], None)
        self.say(event, self.worker.pop(event.words[0]), event.kind)

    def text(self):
        return "\n".join([*self.log.head, *self.lines, ""])


def ticks_of(order):
    """For how many ticks each item is booked: until the tick at which its timer expires, or later than all of them."""
    ticks, booked, fired, most = {}, {}, 0, sum(it.kind == "fire" for it in order) + 1
    for event in order:
        if event.kind == "fire":
            fired += 1
            at, number = booked.pop(event.words[0])
            ticks[number] = fired - at
        elif event.kind in ("delay", "modify") and event.words[3]:
            ticks[event.number] = most - fired
            if event.returned or event.kind == "modify":
                booked[event.words[0]] = fired, event.number
    return ticks


def is_answered(event, call, reply, state, who):
    """Whether the program's reply is what the kernel did."""
    kind = event.kind
    if kind == "start":
        return reply[0] == "started" and state.runs[who][0] == str(event.words[0])
    if kind == "fire":
        return reply[:2] == ["fired", str(event.words[0])]
    if kind in ("flushed", "drained", "cancelled"):
        return reply == ["done"]
    if kind in ("flush", "drain"):
        return reply[0] == "ticket"
    if kind == "flush_item":
        return reply[0] == ("ticket" if event.returned else "idle")
    if kind == "cancel_sync":
        return reply[0] == "ticket" and scenarios.ended_with(call, reply) == (str(event.returned),)
    if kind in DONE:
        return reply[0] == DONE[kind]
    return reply[0] not in scenarios.REFUSALS and scenarios.returned(call, reply) == str(event.returned)


def written(program, log, order, path):
    """Writes the history of an order to a file: the names of the known differences in it, each as often as it is there.
    Raises Broken where the program answers otherwise, or does not accept the history."""
    calls, state = Calls(log, order), scenarios.State()
    known = calls.known
    with tempfile.NamedTemporaryFile("w", suffix=".calls", encoding="utf-8") as it:
        it.write(calls.text())
        it.flush()
        with open(path, "w", encoding="utf-8") as out:
            ran = subprocess.run([program, "step", it.name], stdout=out, stderr=subprocess.PIPE, text=True,
                                 stdin=subprocess.DEVNULL, check=False)
        if ran.returncode:
            raise Broken(f"the program refuses the calls: {ran.stderr.strip()}")
    with open(path, encoding="utf-8") as it:
        entries = [scenarios.entry_of(line) for line in it if " = " in line]
    if len(entries) != len(calls.lines):
        raise Broken(f"{len(entries)} entries are in the history of {len(calls.lines)} calls")
    for number, ((who, call, reply), event) in enumerate(zip(entries, calls.wanted)):
        state.enter(number, who, call, reply)
        if event is None or is_answered(event, call, reply, state, who):
            continue
        if event.kind == "modify" and log.is_old and reply == ["no"]:
            known.append(OLD_MODIFY)
        else:
            raise Broken(f"the program answers {' '.join(reply)} to {event.text()}")
    checked = subprocess.run([program, "check", path], capture_output=True, text=True, stdin=subprocess.DEVNULL,
                             check=False)
    if checked.returncode:
        raise Broken(f"the program does not accept the history: {checked.stdout.strip()}")
    return known
