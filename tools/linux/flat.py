"""What a history leaves behind, kept from event to event: a state, and what an event does to it.

The rules are those of docs/SEMANTICS.md. A state has no more than what the rules ask of the entries so far, so two
orders of the same events that leave equal states can go on alike. A queueing is known by the event that opened it.
"""

from scenarios import Broken

# The part of a state that each method changes is copied before, and the rest is shared.
PARTS = ("waiting", "booked", "runs", "cancels", "inactive", "worklists", "active", "widths", "is_frozen", "draining",
         "tickets")


class Shape:
    """The numbers of the lines of the shape and the queues."""

    def __init__(self, head):
        words = [line.split() for line in head]
        queues = [it for it in words if it[0] == "wq"]
        try:
            shape, = (it for it in words if it[0] == "shape")
            self.cpus, self.workers, self.callers, self.items, _ = map(int, shape[1:])
            self.widths = [min(int(width) or 256, 512) for _, width, _ in queues]
        except ValueError as error:
            raise Broken("its first lines are not those of a shape and its queues") from error
        self.lanes = ["n" if "h" not in it[2] else "h" for it in queues]
        self.is_intensive = ["i" in it[2] for it in queues]
        self.freezable = [at for at, it in enumerate(queues) if "f" in it[2]]

    def pool(self, queue, cpu):
        """The pool in which a queueing of a queue runs, as the number of its worklist."""
        return 2 * cpu + (self.lanes[queue] == "h")


class State:
    """What the events so far leave behind."""

    __slots__ = (*PARTS, "shape", "activated")

    def __init__(self, shape):
        places = len(shape.widths) * shape.cpus
        self.shape, self.activated = shape, ()
        self.waiting = (None,) * shape.items       # (queueing, queue, cpu, whether it is active) of an item
        self.booked = (None,) * shape.items        # (queue, cpu)
        self.runs = (None,) * shape.items          # (queueing, queue, cpu, whether it sleeps)
        self.cancels = (0,) * shape.items          # how many cancel_sync are unended
        self.inactive = ((),) * places             # the items of a queue on a CPU, the oldest first
        self.worklists = ((),) * 2 * shape.cpus
        self.active = (0,) * places                # how many queueings of a queue on a CPU
        # of a queue on a CPU, as here a width may change on one CPU after the other
        self.widths = tuple(it for it in shape.widths for _ in range(shape.cpus))
        self.is_frozen = (False,) * shape.cpus
        self.draining = (0,) * len(shape.widths)
        self.tickets = ()                          # (wait, queueings for which it waits), without those that are ready

    def key(self):
        return tuple(getattr(self, it) for it in PARTS)

    def copy(self):
        new = self.__new__(type(self))
        new.shape, new.activated = self.shape, ()
        (new.waiting, new.booked, new.runs, new.cancels, new.inactive, new.worklists, new.active, new.widths,
         new.is_frozen, new.draining, new.tickets) = self.key()
        return new

    # --- what is asked ---

    def is_pending(self, item):
        return self.waiting[item] is not None or self.booked[item] is not None

    def width(self, queue, cpu):
        return 0 if self.is_frozen[cpu] and queue in self.shape.freezable else self.widths[self.place(queue, cpu)]

    def place(self, queue, cpu):
        return queue * self.shape.cpus + cpu

    def open_of_queue(self, queue):
        """The queueings of a queue that have not ended."""
        return [it[0] for it in (*self.waiting, *self.runs) if it and it[1] == queue]

    def open_of_item(self, item):
        return [it[0] for it in (self.waiting[item], self.runs[item]) if it]

    def next_of(self, pool):
        """The item that starts next in a pool, if something does."""
        return next((it for it in self.worklists[pool] if not self.runs[it]), None)

    def holds(self, run, pool):
        """Whether a run holds up the starts of a pool: it is of it and awake, and its queue is not CPU intensive."""
        _, queue, cpu, is_asleep = run
        return not is_asleep and not self.shape.is_intensive[queue] and self.shape.pool(queue, cpu) == pool

    def is_held(self, pool):
        return any(it and self.holds(it, pool) for it in self.runs)

    def is_ready(self, wait):
        """Whether what a flush waits for has ended."""
        return all(number != wait.number for number, _ in self.tickets)

    def is_taken(self, item):
        """Whether an unended cancel_sync keeps the item from being queued."""
        return bool(self.cancels[item])

    def is_idle(self):
        return not any(self.waiting) and not any(self.booked) and not any(self.runs)

    # --- what changes; all these are for a copy ---

    def set(self, part, at, value):
        old = getattr(self, part)
        setattr(self, part, (*old[:at], value, *old[at + 1:]))

    def open(self, queueing, item, queue, cpu):
        """Opens a queueing. Where it runs, or where it was called for."""
        cpu = self.cpu_of(item, cpu)
        place = self.place(queue, cpu)
        is_active = not self.inactive[place] and self.active[place] < self.width(queue, cpu)
        self.set("waiting", item, (queueing, queue, cpu, is_active))
        if is_active:
            self.activate(item, queue, cpu)
        else:
            self.set("inactive", place, (*self.inactive[place], item))
        return cpu, is_active

    def cpu_of(self, item, cpu):
        """Where an item goes that is queued on a CPU."""
        return self.runs[item][2] if self.runs[item] else cpu

    def activate(self, item, queue, cpu):
        place, pool = self.place(queue, cpu), self.shape.pool(queue, cpu)
        self.set("active", place, self.active[place] + 1)
        self.set("worklists", pool, (*self.worklists[pool], item))

    def fill(self, queue, cpu):
        """Makes active what may be now."""
        place = self.place(queue, cpu)
        while self.inactive[place] and self.active[place] < self.width(queue, cpu):
            item, *rest = self.inactive[place]
            self.set("inactive", place, tuple(rest))
            self.set("waiting", item, (*self.waiting[item][:3], True))
            self.activate(item, queue, self.waiting[item][2])
            self.activated += (item,)

    def fill_all(self, queue, cpus):
        """The same after a change of the width on some CPUs."""
        for cpu in cpus:
            self.fill(queue, cpu)

    def end(self, queueing):
        """Lets go of the tickets that wait for a queueing."""
        if self.tickets:
            left = ((wait, tuple(it for it in of if it != queueing)) for wait, of in self.tickets)
            self.tickets = tuple(it for it in left if it[1])

    def take_back(self, item):
        """Takes an item off its timer or out of its queue."""
        if self.booked[item]:
            self.set("booked", item, None)
            return
        queueing, queue, cpu, is_active = self.waiting[item]
        place, pool = self.place(queue, cpu), self.shape.pool(queue, cpu)
        self.set("waiting", item, None)
        self.end(queueing)
        if is_active:
            self.set("worklists", pool, tuple(it for it in self.worklists[pool] if it != item))
            self.set("active", place, self.active[place] - 1)
            self.fill(queue, cpu)
        else:
            self.set("inactive", place, tuple(it for it in self.inactive[place] if it != item))

    def wait(self, wait, queueings):
        if queueings:
            self.tickets = tuple(sorted((*self.tickets, (wait, tuple(sorted(queueings))))))


# --- events ---
# Each of these gives the state after an event, or None where the event can't come now and return what it did.

def opened(state, event, item, queue, cpu):
    """A queueing is opened on the CPU and with the activity that were seen."""
    if state.runs[item] and state.runs[item][1] != queue:
        return None
    return state if state.open(event.number, item, queue, cpu) == (event.cpu_seen, event.is_active) else None


def may_queue(state, event, queue):
    return not state.draining[queue] or (event.run is not None and state.runs[event.run][1] == queue)


def queue(state, event):
    item, of, cpu = event.words
    if state.is_taken(item) or state.is_pending(item):
        return state if event.returned == 0 else None
    if event.returned != 1 or not may_queue(state, event, of):
        return None
    return opened(state.copy(), event, item, of, cpu)


def delay(state, event):
    item, of, cpu, ticks = event.words
    if state.is_taken(item) or state.is_pending(item):
        return state if event.returned == 0 else None
    if event.returned != 1 or not may_queue(state, event, of) or (ticks and state.draining[of]):
        return None
    new = state.copy()
    if not ticks:
        return opened(new, event, item, of, cpu)
    new.set("booked", item, (of, cpu))
    return new


def modify(state, event):
    item, of, cpu, ticks = event.words
    if state.is_taken(item):
        return state if event.returned == 0 or event.is_old else None
    if event.returned != state.is_pending(item) or not may_queue(state, event, of) or (ticks and state.draining[of]):
        return None
    new = state.copy()
    if state.is_pending(item):
        new.take_back(item)
    if not ticks:
        return opened(new, event, item, of, cpu)
    new.set("booked", item, (of, cpu))
    return new


def fire(state, event):
    item, = event.words
    if not state.booked[item] or state.draining[state.booked[item][0]]:
        return None
    new = state.copy()
    new.set("booked", item, None)
    return opened(new, event, item, *state.booked[item])


def cancel(state, event):
    item, = event.words
    if not state.is_pending(item):
        return state if event.returned == 0 else None
    if event.returned != 1:
        return None
    new = state.copy()
    new.take_back(item)
    return new


def cancel_sync(state, event):
    item, = event.words
    if event.returned != state.is_pending(item):
        return None
    new = state.copy()
    if event.returned:
        new.take_back(item)
    new.set("cancels", item, state.cancels[item] + 1)
    return new


def cancelled(state, event):
    item, = event.words
    if state.runs[item]:
        return None
    new = state.copy()
    new.set("cancels", item, state.cancels[item] - 1)
    return new


def flush(state, event):
    new = state.copy()
    new.wait(event.number, state.open_of_queue(*event.words))
    return new


def flush_item(state, event):
    queueings = state.open_of_item(*event.words)
    if event.returned != bool(queueings):
        return None
    new = state.copy()
    new.wait(event.number, queueings)
    return new


def flushed(state, event):
    return state if state.is_ready(event.after) else None


def drain(state, event):
    of, = event.words
    new = state.copy()
    new.set("draining", of, state.draining[of] + 1)
    return new


def drained(state, event):
    of, = event.words
    if state.open_of_queue(of):
        return None
    new = state.copy()
    new.set("draining", of, state.draining[of] - 1)
    return new


def set_max(state, event):
    of, width = event.words
    new = state.copy()
    for cpu in event.cpus:
        new.set("widths", state.place(of, cpu), min(width, 512))
    new.fill_all(of, event.cpus)
    return new


def freeze(state, event):
    return frozen(state, event, True)


def thaw(state, event):
    return frozen(state, event, False)


def frozen(state, event, is_frozen):
    if any(state.is_frozen[cpu] == is_frozen for cpu in event.cpus):
        return None
    new = state.copy()
    for cpu in event.cpus:
        new.set("is_frozen", cpu, is_frozen)
    for of in state.shape.freezable:
        new.fill_all(of, event.cpus)
    return new


def start(state, event):
    item, pool = event.words
    if state.next_of(pool) != item or (state.is_held(pool) and not event.is_again):
        return None
    new = state.copy()
    queueing, of, cpu, _ = state.waiting[item]
    new.set("waiting", item, None)
    new.set("worklists", pool, tuple(it for it in state.worklists[pool] if it != item))
    new.set("runs", item, (queueing, of, cpu, event.is_asleep))
    return new


def finish(state, event):
    item, = event.words
    run = state.runs[item]
    if not run or run[3]:
        return None
    queueing, of, cpu, _ = run
    new = state.copy()
    new.set("runs", item, None)
    new.set("active", state.place(of, cpu), state.active[state.place(of, cpu)] - 1)
    new.end(queueing)
    new.fill(of, cpu)
    return new


def sleep(state, event):
    return turned(state, event, True)


def wake(state, event):
    return turned(state, event, False)


def turned(state, event, is_asleep):
    item, = event.words
    run = state.runs[item]
    if not run or run[3] == is_asleep:
        return None
    new = state.copy()
    new.set("runs", item, (*run[:3], is_asleep))
    return new


DO = {it.__name__: it for it in (queue, delay, modify, fire, cancel, cancel_sync, cancelled, flush, flush_item, flushed,
                                 drain, drained, set_max, freeze, thaw, start, finish, sleep, wake)}


def after(state, event):
    """The state after an event: it may come now, returns what it did, and makes active what it was seen to."""
    new = DO[event.kind](state, event)
    if new is None or new is state:
        return new
    if event.is_among_others:
        return new if set(new.activated) <= set(event.activated) else None
    return new if sorted(new.activated) == event.activated else None
