"""Plants faults in a log of a kernel under load, each of which the judge must find."""
import bisect
import random

from events import Line

# What may make an item active that waits.
ACTIVATES = ("cancel", "cancel_sync", "modify", "set_max", "thaw", "execute_end")

# A worker of no log, by which a run goes on whose start was moved.
OTHER = "w999"


class Run:
    """A run as a log tells it: its lines, their places in the log, and when its item was queued and became active."""

    def __init__(self, at, line, queued, active):
        self.item, self.at, self.start, self.end = line.words[0], [at], line, None
        self.queued, self.active = queued, active
        self.is_plain = True        # it made no call, and nothing became active at its end


class Told:
    """What the lines of a log say."""

    def __init__(self, lines):
        self.lines = list(lines)
        self.told = [None if it.split()[0] in ("calls", "shape", "wq") else Line(it) for it in lines]
        self.order = sorted((at for at, it in enumerate(self.told) if it), key=lambda at: time_of(self.told[at]))
        self.queue_of = {it.words[0]: it.words[1] for it in self.of("queue", "delay", "modify")}
        queues = [it.split()[2] for it in lines if it.startswith("wq ")]
        self.lanes, self.holds = ["h" in it for it in queues], ["i" not in it for it in queues]
        self.runs, going_on, last = [], {}, {}
        for at in self.order:
            line = self.told[at]
            run = going_on.get(line.who)
            if line.what == "execute_start":
                times = (last.get((what, line.words[0]), 0) for what in ("queue_work", "activate_work"))
                going_on[line.who] = Run(at, line, *times)
                self.runs.append(going_on[line.who])
            elif run and line.what in ("sleep", "wake", "execute_end") and not run.end:
                run.at.append(at)
                run.end = line if line.what == "execute_end" else None
            elif run:
                run.is_plain = False
            last[(line.what, *line.words[:1])] = line.since

    def of(self, *what):
        return [it for it in self.told if it and it.what in what]

    def pool(self, run):
        return self.lanes[self.queue_of[run.item]], run.start.words[1]

    def with_lines(self, changed):
        """The log with other lines at some places, or none."""
        return [text for text in (changed.get(at, it) for at, it in enumerate(self.lines)) if text]

    def begun_at(self, run, time):
        """The log in which a run begins at another time, and is that of another worker."""
        changed = {}
        for at in run.at:
            since, until, _, rest = self.lines[at].split(" ", 3)
            changed[at] = f"{since} {until} {OTHER} {rest}"
        changed[run.at[0]] = f"{time} {time} {OTHER} execute_start {run.item} {run.start.words[1]}"
        return self.with_lines(changed)

    # --- each gives, for each place where the fault can be planted, how to make the log with it ---

    def lost_starts(self):
        for run in self.runs:
            if run.is_plain:
                yield lambda run=run: self.with_lines(dict.fromkeys(run.at))

    def two_at_once(self):
        """An item that was queued while it ran starts before that run has ended."""
        last = {}
        for run in self.runs:
            before, last[run.item] = last.get(run.item), run
            if before and run.is_plain and before.start.until < run.active < before.end.since - 1:
                time = (run.active + before.end.since) // 2
                yield lambda run=run, time=time: self.begun_at(run, time)

    def early_flushes(self):
        """A flush ends while a run goes on that was queued before it."""
        ends = sorted((it.end.since, it.queued, self.queue_of[it.item]) for it in self.runs)
        for at, line in enumerate(self.told):
            if not line or line.what != "flush":
                continue
            of, first = line.words[0], bisect.bisect_right(ends, (line.since + 2,))
            last = bisect.bisect_left(ends, (line.until,))
            end = next((it[0] for it in ends[first:last] if it[1] < line.since and it[2] == of), None)
            if end:
                early = f"{line.since} {(line.since + end) // 2} {line.who} flush {of} = -"
                yield lambda at=at, early=early: self.with_lines({at: early})

    def too_many_active(self):
        """An item that had to wait becomes active as it is queued."""
        changing, latest = [], 0        # of all that may make an item active: when it began, and until when some go on
        for line in sorted(self.of(*ACTIVATES), key=lambda it: it.since):
            latest = max(latest, line.until)
            changing.append((line.since, latest))
        queued, last = {}, {}
        for at in self.order:
            line = self.told[at]
            if line.what == "queue_work":
                queued[line.words[0]] = line
            elif line.what == "activate_work":
                before = queued.pop(line.words[0], None)
                had_to_wait = before and last.get(line.who) is not before
                span = bisect.bisect_right(changing, (before.since + 2,)) if had_to_wait else 0
                if span and changing[span - 1][1] < before.since:
                    text = f"{before.since + 1} {before.since + 1} {before.who} activate_work {line.words[0]}"
                    yield lambda at=at, text=text: self.with_lines({at: text})
            last[line.who] = line

    def held_starts(self):
        """An item starts before a run sleeps that holds it up."""
        last = {}
        for other in self.runs:
            run, last[self.pool(other)] = last.get(self.pool(other)), other
            if not run or len(run.at) < 3 or not self.holds[self.queue_of[run.item]]:
                continue
            begun, slept = max(other.active, run.start.until), self.told[run.at[1]].since
            if other.is_plain and begun < slept - 1 and slept < other.start.since:
                yield lambda other=other, time=(begun + slept) // 2: self.begun_at(other, time)

    def wrong_returns(self):
        """A call says that it did nothing, and did."""
        for at, line in enumerate(self.told):
            if line and line.what == "cancel" and line.returned:
                yield lambda at=at: self.with_lines({at: self.lines[at][:-1] + "0"})


def time_of(line):
    return line.until if line.what == "execute_start" else line.since


FAULTS = {
    "a lost start": Told.lost_starts,
    "two runs of an item at once": Told.two_at_once,
    "a flush that ends early": Told.early_flushes,
    "one more active than max_active": Told.too_many_active,
    "a start beside a run that is awake": Told.held_starts,
    "a cancel that returns false and cancels": Told.wrong_returns,
}


def planted(lines, seed, each=1):
    """Logs with a fault, by its name: of each fault so many, where the log has a place for it."""
    told, chance = Told(lines), random.Random(f"planted {seed}")
    for name, places in FAULTS.items():
        found = [*places(told)]
        for place in chance.sample(found, min(each, len(found))):
            yield name, place()
