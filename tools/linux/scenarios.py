"""Scenarios of workqueues: what the program answers to the calls of one, and what a kernel was seen to do.

A scenario is a file of calls for `cmwq step`. Its *steps* are the calls that a kernel can be made to make. After each
step stand the calls that only ask what came of it: each pool takes until it starts no more, and each unended wait tries
its end. So the *facts* of a step are read off the replies up to the next step:

    returned N      what the kernel's function returned; of `fire`, the item whose timer expired
    started I POOL  a run of the item began in the pool, such as 0n; one after the other
    ended I         a run of the item ended
    done T [N]      the wait that began at step T returned, and what
    pending I..     the items that are pending, after the step
    running I..     the items that run
    warned F        the kernel's log has a warning of the function F; the program never warns

The number of a step is that of its entry in the history that `cmwq step` writes.
"""
import glob
import os
import re
import subprocess
import sys

sys.path.insert(0, os.path.dirname(os.path.dirname(os.path.realpath(__file__))))
import common
from common import ROOT

FOLDER = f"{ROOT}/examples/linux"

# Calls that only ask.
ASKS = ("take", "end", "retire")

WAITS = ("flush", "drain", "destroy", "flush_item", "flush_delayed", "cancel_sync")

# Without these calls all items are plain works (work_struct), otherwise all are delayed_work.
OF_TIMERS = ("delay", "modify", "flush_delayed")

# What the kernel's function returns where the program gives such a reply (Kernel.antt); others return nothing.
RETURNS = {
    "queue": {"yes": 1, "booked": 1, "no": 0},
    "delay": {"yes": 1, "booked": 1, "no": 0},
    "modify": {"again": 1, "rebooked": 1, "yes": 0, "booked": 0, "no": 0},
    "cancel": {"cancelled": 1, "unbooked": 1, "no": 0},
}

# Replies of the program that no kernel gives.
REFUSALS = ("foreign", "draining", "gone", "timers", "crowded", "misuse")

KINDS = ("failed", "returned", "started", "ended", "done", "pending", "running", "warned")


class Broken(Exception):
    """A file that is not what it should be, in one line."""


class Facts:
    """The facts of one step."""

    def __init__(self, number, call):
        self.number, self.call = number, call
        self.returned, self.failed = "", ""
        self.started, self.ended, self.done, self.warned = [], [], [], []
        self.pending, self.running = set(), set()

    def starts(self):
        """Those of each pool in their order; pools work side by side."""
        return sorted(self.started, key=lambda it: it[1])

    def of_pool(self, pool):
        """The runs that started in a pool."""
        return [it for it in self.started if it[1] == pool]

    def lists(self):
        """The facts as text, by their kinds."""
        return {
            "failed": self.failed, "returned": self.returned,
            "started": " ".join(f"{item} {pool}" for item, pool in self.starts()),
            "ended": " ".join(self.ended),
            "done": ", ".join(" ".join(it) for it in sorted(self.done)),
            "pending": spans(self.pending), "running": spans(self.running),
            "warned": " ".join(self.warned),
        }

    def line(self):
        """The line of a recorded file."""
        parts = [f"returned {self.returned}"] if self.returned else []
        parts += [f"failed {self.failed}"] if self.failed else []
        parts += [f"started {item} {pool}" for item, pool in self.starts()]
        parts += [f"ended {it}" for it in self.ended]
        parts += [f"done {' '.join(it)}" for it in sorted(self.done)]
        parts += [f"pending {spans(self.pending)}".strip(), f"running {spans(self.running)}".strip()]
        parts += [f"warned {it}" for it in self.warned]
        return f"{self.number} {self.call}: {', '.join(parts)}"

    def read(self, text):
        """Takes in facts as text, separated by commas."""
        for part in text.split(", "):
            kind, *words = part.split()
            if kind == "returned":
                self.returned = words[0]
            elif kind == "failed":
                self.failed = words[0]
            elif kind == "started":
                self.started.append(tuple(words))
            elif kind == "ended":
                self.ended.append(words[0])
            elif kind == "done":
                self.done.append(tuple(words))
            elif kind in ("pending", "running"):
                setattr(self, kind, {item for it in words for item in range(*bounds(it))})
            elif kind == "warned":
                self.warned.append(words[0])
            else:
                raise Broken(f"not a fact: {part}")
        return self


def spans(items):
    """Numbers as `0-2 5`."""
    found = []
    for it in sorted(items):
        if found and it == found[-1][1] + 1:
            found[-1][1] = it
        else:
            found.append([it, it])
    return " ".join(f"{first}-{last}" if first < last else f"{first}" for first, last in found)


def bounds(span):
    first, _, last = span.partition("-")
    return int(first), int(last or first) + 1


class State:
    """What follows from the replies so far, without a rule of when a reply is right."""

    def __init__(self):
        self.item_of = {}        # by the number of a queueing
        self.queue_of = {}       # the queue of an item's open queueing or booking that came last
        self.unstarted = {}      # the queueing of an item
        self.booked = set()
        self.runs = {}           # (item, queue of its queueing, asleep) by worker
        self.waits = {}          # the call of an unended wait, by its number
        self.waiter = {}         # who made it
        self.gone = set()

    def enter(self, number, who, call, reply):
        """Takes in an entry."""
        word, item = reply[0], call[1] if len(call) > 1 else None
        if word in ("yes", "again"):
            self.open(number, item, call[2])
        elif word in ("booked", "rebooked"):
            self.unstarted.pop(item, None)
            self.booked.add(item)
            self.queue_of[item] = call[2]
        elif word == "fired":
            self.open(number, reply[1], self.queue_of[reply[1]])
        elif word == "cancelled":
            self.unstarted.pop(item, None)
        elif word == "unbooked":
            self.booked.discard(item)
        elif word == "ticket":
            self.waits[str(number)], self.waiter[str(number)] = call, who
            if reply[2:] == ["queued"]:
                self.open(number, item, self.queue_of[item])
            elif reply[2:3] == ["cancelled"]:
                self.unstarted.pop(item, None)
            elif reply[2:3] == ["unbooked"]:
                self.booked.discard(item)
        elif word == "done":
            ended = self.waits.pop(item, ["?"])
            if ended[0] == "destroy":
                self.gone.add(ended[1])
        elif word == "started":
            item = self.item_of.get(int(reply[1]), "?")
            self.unstarted.pop(item, None)
            self.runs[who] = (item, self.queue_of.get(item), False)
        elif word == "finished":
            self.runs.pop(who, None)
        elif word in ("slept", "woke") and who in self.runs:
            self.runs[who] = (*self.runs[who][:2], word == "slept")

    def open(self, number, item, queue):
        self.booked.discard(item)
        self.item_of[number], self.unstarted[item], self.queue_of[item] = item, number, queue

    def pending(self):
        return {int(it) for it in (*self.unstarted, *self.booked)}

    def running(self):
        return {int(item) for item, _, _ in self.runs.values() if item != "?"}

    def cancelling(self):
        return {int(call[1]) for call in self.waits.values() if call[0] == "cancel_sync"}

    def draining(self):
        return {call[1] for call in self.waits.values() if call[0] in ("drain", "destroy")}


class Played:
    """What the program answers to the calls of a scenario."""

    def __init__(self, head, entries):
        self.head, self.entries = head, entries    # entries are (who, call, reply)
        self.cancelling = {}                       # by the number of a step
        self.steps = [*self._steps()]

    def _steps(self):
        state, facts, returns = State(), None, {}
        for number, (who, call, reply) in enumerate(self.entries):
            if call[0] not in ASKS:
                if facts:
                    yield self._closed(facts, state)
                facts = Facts(number, f"{who} {' '.join(call)}")
                facts.returned = returned(call, reply)
                if reply[0] == "finished":
                    facts.ended = [state.runs.get(who, "?")[0]]
                if call[0] in WAITS:
                    returns[str(number)] = ended_with(call, reply)
                    if reply[0] == "idle":
                        facts.done.append((str(number), "0"))
            elif facts is None:
                raise Broken("it begins with a call that asks")
            elif reply[0] == "done":
                facts.done.append((call[1], *returns.get(call[1], ())))
            state.enter(number, who, call, reply)
            if reply[0] == "started":
                facts.started.append((state.runs[who][0], who[1:who.index("nh"["h" in who]) + 1]))
        if facts:
            yield self._closed(facts, state)

    def _closed(self, facts, state):
        facts.pending, facts.running = state.pending(), state.running()
        self.cancelling[facts.number] = state.cancelling()
        return facts

    def script(self, name, expires=False):
        """The lines for the player."""
        _, cpus, _, _, items, _ = self.head[-1 - self.queues()].split()
        for what, number, most in (("CPUs", cpus, 3), ("items", items, 1024), ("queues", self.queues(), 16)):
            if int(number) > most:
                raise Broken(f"{name} has {number} {what}; a kernel is asked about at most {most}")
        plain = [] if any(call[0] in OF_TIMERS for _, call, _ in self.entries) else ["plain"]
        lines = [f"scenario {name}", *plain, *self.head[-self.queues():], f"items {items}"]
        state = State()
        for number, (who, call, reply) in enumerate(self.entries):
            if reply[0] in ("misuse", "gone"):
                raise Broken(f"entry {number}: a kernel cannot be made to do this ({reply[0]})")
            if call[0] not in ASKS:
                item = by_run(state, who)
                words = ["expire"] if expires and call[0] == "fire" else call
                if item and len(call) == 1:
                    words = [call[0], item]
                elif item:
                    words = ["by", call[0], item, *call[1:]]
                lines += [f"at {number}", " ".join(words)]
            state.enter(number, who, call, reply)
        return "\n".join([*lines, "end", ""])

    def lines(self):
        """The calls of the steps as the lines that make them anew (Talk.step)."""
        state = State()
        for number, (who, call, reply) in enumerate(self.entries):
            if call[0] not in ASKS:
                by = by_run(state, who)
                yield f"{call[0]} {by}" if by and len(call) == 1 else f"{f'by {by} ' * bool(by)}{' '.join(call)}"
            state.enter(number, who, call, reply)

    def items(self):
        return int(next(line.split()[4] for line in self.head if line.startswith("shape ")))

    def queues(self):
        return sum(line.startswith("wq ") for line in self.head)

    def calls(self):
        """The scenario as a file of calls."""
        return "\n".join([*self.head, *(f"{who} {' '.join(call)}" for who, call, _ in self.entries), ""])


def by_run(state, who):
    """The item by whose run a call is made, or nothing: a worker makes it, or the caller that is lent to the item."""
    if who in state.runs:
        return state.runs[who][0]
    return str(int(who[1:]) - 1) if who[0] == "c" and who != "c0" else ""


def returned(call, reply):
    """The fact `returned` of a step: a refusal of the program is none that a kernel gives."""
    if reply[0] in REFUSALS:
        return reply[0]
    if reply[0] == "fired":
        return reply[1]
    found = RETURNS.get(call[0], {}).get(reply[0])
    return "" if found is None else str(found)


def ended_with(call, reply):
    """What a wait returns at its end."""
    if call[0] in ("flush_item", "flush_delayed"):
        return ("1",)
    if call[0] == "cancel_sync":
        return ("0",) if reply[-1] == "no" else ("1",)
    return ()


def entry_of(line):
    """An entry of a history: who, call, reply."""
    called, _, reply = line.partition(" = ")
    who, _, *call = called.split()
    return who, call, reply.split()


def play(program, path):
    """What a program answers to a file of calls."""
    ran = subprocess.run([program, "step", path], stdin=subprocess.DEVNULL, capture_output=True, text=True, check=False)
    if ran.returncode:
        raise Broken(f"status {ran.returncode}: {ran.stderr.strip() or 'nothing said'}")
    head = [line for line in common.text_of(path).splitlines() if line.split()[0] in ("calls", "shape", "wq")]
    return Played(head, [entry_of(line) for line in ran.stdout.splitlines() if " = " in line])


class Talk:
    """A scenario in the making: the program answers each call, and what it must be asked is asked."""

    def __init__(self, program, head):
        self.head, self.entries, self.state = head, [], State()
        self.steps = 0
        words = [line.split() for line in head]
        shape = next(it for it in words if it[0] == "shape")
        self.cpus, self.items, self.queues = int(shape[1]), int(shape[4]), [it[1:] for it in words if it[0] == "wq"]
        lanes = {"h" if "h" in flags else "n" for _, flags in self.queues}
        self.enlisted = {f"{cpu}{lane}": 1 for cpu in range(self.cpus) for lane in sorted(lanes, reverse=True)}
        self.process = subprocess.Popen([program, "step", "--live"], stdin=subprocess.PIPE, stdout=subprocess.PIPE,
                                        text=True)
        self.process.stdin.write("".join(f"{line}\n" for line in head))

    def stop(self):
        self.process.communicate()

    def close(self):
        self.stop()
        return Played(self.head, self.entries)

    def calls(self):
        """What was said, as a file of calls."""
        return "\n".join([*self.head, *(f"{who} {' '.join(call)}" for who, call, _ in self.entries), ""])

    def say(self, who, *call):
        """Makes a call: its reply."""
        self.process.stdin.write(f"{who} {' '.join(call)}\n")
        self.process.stdin.flush()
        while True:
            line = self.process.stdout.readline()
            if not line:
                raise Broken(f"the program ended at: {who} {' '.join(call)}")
            if " = " in line:
                break
        entry = entry_of(line)
        self.state.enter(len(self.entries), *entry)
        self.entries.append(entry)
        return entry[2]

    def worker(self, item):
        found = [who for who, run in self.state.runs.items() if run[0] == item]
        if not found:
            raise Broken(f"item {item} does not run")
        return found[0]

    def step(self, line):
        """Makes the call of a line: `queue 0 0 0`; of a run, `by ITEM queue 0 0 0` or `sleep ITEM`. Then it asks."""
        words = line.split()
        if words[0] == "by" and words[2] in WAITS:
            if not self.state.runs[self.worker(words[1])][2]:
                raise Broken(f"the run of item {words[1]} makes a call that waits, and does not sleep")
            reply = self.say(f"c{int(words[1]) + 1}", *words[2:])
        elif words[0] == "by":
            reply = self.say(self.worker(words[1]), *words[2:])
        elif words[0] in ("sleep", "wake", "finish"):
            reply = self.say(self.worker(words[1]), words[0])
        else:
            reply = self.say("c0", *words)
        self.steps += 1
        for pool in self.enlisted:
            self.take_all(pool)
        while any([self.say(self.state.waiter[it], "end", it) == ["done"] for it in [*self.state.waits]]):
            pass
        return reply

    def take_all(self, pool):
        while True:
            idle = [it for it in range(self.enlisted[pool]) if f"w{pool}{it}" not in self.state.runs]
            if not idle:
                return
            reply = self.say(f"w{pool}{idle[0]}", "take")
            if reply[0] != "started":
                return
            if "enlist" in reply:
                self.enlisted[pool] = int(reply[-1]) + 1


# --- recorded files ---

class Recorded:
    """What a kernel was seen to do: its release, the facts of each step, and why they are none, if they are."""

    def __init__(self, release, steps):
        self.release, self.steps, self.fault, self.is_cut_off = release, steps, "the kernel ended in it", True

    def text(self):
        return "\n".join([f"linux {self.release}", *(it.line() for it in self.steps), ""])


def read_recorded(path):
    lines = common.text_of(path).splitlines()
    if not lines or not lines[0].startswith("linux "):
        raise Broken("its first line names no kernel")
    steps = []
    for line in lines[1:]:
        found = re.match(r"(\d+) ([^:]+): (.*)$", line)
        if not found:
            raise Broken(f"not a step: {line}")
        steps.append(Facts(int(found[1]), found[2]).read(found[3]))
    return Recorded(lines[0][len("linux "):], steps)


def last_of(lines):
    """Why a kernel ended before the end of its script: the line of its panic, or else the last of its log."""
    said = [re.sub(r"^\[ *[0-9.]+\] *", "", line).strip() for line in lines]
    panic = next((it for it in said if it.startswith("Kernel panic")), None)
    return panic or next((it for it in reversed(said) if it), "its log is empty")


def read_log(lines, played):
    """What the log of a kernel tells of scenarios: what was seen of each, by name."""
    release, found, name, warned, unquiet = "", {}, None, [], {}
    for line in lines:
        told = re.search(r"\bcmwq: (.*)", line)
        warning = re.search(r"WARNING: .* at \S+ (\w+)\+|\b(BUG|Oops|Kernel panic)\b", line)
        if warning and name:
            warned.append(warning[1] or warning[2].replace(" ", "_"))
        if not told:
            continue
        word, _, rest = told[1].partition(" ")
        if word == "linux":
            release = rest
        elif word == "scenario":
            name, warned = rest, []
            calls = {it.number: it.call for it in played[name].steps}
            found[name] = Recorded(release, [])
        elif word == "end" and name:
            found[name].fault, found[name].is_cut_off, name = unquiet.pop(name, ""), False, None
        elif word in ("noisy:", "stuck") and name:
            unquiet[name] = f"the kernel did not become quiet: {told[1]}"
        elif word == "step" and name:
            number, _, facts = rest.partition(", ")
            step = Facts(int(number), calls[int(number)]).read(facts)
            step.warned, warned = warned, []
            found[name].steps.append(step)
    return found


# --- differences ---

def first_difference(played, recorded, is_pending_in_cancel):
    """The first step at which a kernel and the program differ, as a line, or None; and whether the kernel, as those
    before 6.10 do, was seen to show items as pending whose cancel_sync is unended, where that is to be allowed."""
    was_seen = False
    for ours, theirs in zip(played.steps, recorded.steps):
        if (ours.number, ours.call) != (theirs.number, theirs.call):
            return f"{ours.number} {ours.call}: recorded of another call, {theirs.number} {theirs.call}", was_seen
        mine, other = ours.lists(), theirs.lists()
        if is_pending_in_cancel and mine["pending"] != other["pending"]:
            shown = spans(ours.pending | played.cancelling[ours.number])
            was_seen |= shown == other["pending"]
            mine["pending"] = shown
        for kind in KINDS:
            if mine[kind] != other[kind]:
                what = f"{kind} {other[kind] or '-'} instead of {mine[kind] or '-'}"
                return f"{ours.number} {ours.call}: {what}", was_seen
    if len(played.steps) != len(recorded.steps):
        return f"{len(recorded.steps)} steps are recorded of {len(played.steps)}", was_seen
    return None, was_seen


def versions():
    """The kernels of which something is recorded."""
    return sorted({it.rpartition(".linux-")[2] for it in glob.glob(f"{FOLDER}/*.linux-*")},
                  key=lambda it: [int(part) for part in it.split(".")])


def names():
    return sorted(os.path.basename(it)[:-len(".calls")] for it in glob.glob(f"{FOLDER}/*.calls"))


# --- expected differences ---

PENDING_IN_CANCEL = "an item whose cancel_sync is unended is pending"


class Expected:
    """What NAME.differs says: how a scenario is played, and how kernels differ from the program in it, and why."""

    def __init__(self, name, folder=FOLDER):
        self.why, self.expires, self.first, self.pending_in_cancel = "", False, {}, set()
        path = f"{folder}/{name}.differs"
        self.is_there = os.path.exists(path)
        for line in common.text_of(path).splitlines() if self.is_there else ():
            key, _, text = line.partition(": ")
            if key == "why":
                self.why = text
            elif line == "timers: expire of themselves":
                self.expires = True
            elif text == PENDING_IN_CANCEL:
                self.pending_in_cancel.update(key.split())
            elif re.match(r"\d+ .*: ", text):
                self.first.update(dict.fromkeys(key.split(), text))
            else:
                raise Broken(f"{name}.differs: not a line of it: {line}")
        if self.is_there and not self.why:
            raise Broken(f"{name}.differs says no why")


def judge(played, recorded, expected, version):
    """Whether a kernel differs from the program only as expected, and a text about it."""
    for step in played.steps if expected.expires else ():
        # which timer expires first is not known when the step is told
        step.returned = "" if step.call.endswith(" fire") else step.returned
    found, was_seen = first_difference(played, recorded, version in expected.pending_in_cancel)
    wanted = expected.first.get(version)
    if found != wanted:
        more = f"; expected: {wanted}" if found and wanted else ""
        return False, f"differs: {found}{more}" if found else f"no longer differs: {wanted}"
    if version in expected.pending_in_cancel and not was_seen:
        return False, f"no longer differs: {PENDING_IN_CANCEL}"
    if found:
        return True, f"differs as expected: {found}"
    return True, f"agrees, but {PENDING_IN_CANCEL}" if was_seen else f"agrees in {len(played.steps)} steps"
