"""Looks for an order of events in which the rules allow each.

All that could have come so far is kept at once: a *world* is the state that an order leaves, and the events that it has
taken before their latest times. An event comes at its latest time, and earlier only where another one needs it to. So
at the latest time of an event, each world is followed by those in which some of the events that go on then, and concern
the same items, queues and pools, have come before it, and which of two that commute came first is not tried. Worlds
that can go on alike are one. So no choice is taken back, nothing is seen twice, and the time is that of the log.
"""
import events
import flat

# How many worlds are kept at most, after how many events all of them are kept, and for how many events what comes of
# a change of a width may be unknown.
MOST, KEPT, NEAR = 400, 256, 100


class World:
    """What one order leads to: its state, which later events have come already, and the order, the last one first. Some
    events may have been left out of it, as known differences."""

    __slots__ = ("state", "ahead", "order", "left_out")

    def __init__(self, state, ahead=frozenset(), order=None, left_out=()):
        self.state, self.ahead, self.order, self.left_out = state, ahead, order, left_out

    def key(self):
        return self.ahead, self.state.key()

    def has(self, event, now):
        """Whether an event has come, at the turn of another one."""
        return event.number < now.number or event.number in self.ahead

    def with_event(self, event, now):
        """The world after an event, or None."""
        if event.after is not None and not self.has(event.after, now):
            return None
        state = flat.after(self.state, event)
        if state is None:
            return None
        known = (*self.left_out, events.AGAIN_BESIDE) if now.high < event.early_until else self.left_out
        return World(state, self.ahead | {event.number}, (event, self.order), known)

    def passed(self, event):
        """The same where an event's latest time has come."""
        return World(self.state, self.ahead - {event.number}, self.order, self.left_out)

    def without(self, event):
        """The same where an event has been left out."""
        return World(self.state, self.ahead, self.order, (*self.left_out, event.known_as))

    def events(self):
        """All in their order."""
        found, order = [], self.order
        while order:
            event, order = order
            found.append(event)
        return found[::-1]


class Search:
    """Looks for an order of the events of a log."""

    def __init__(self, log, most=MOST, rules=flat.State):
        self.log, self.most = log, most
        self.first = World(rules(log.shape))
        self.worlds, self.kept = [self.first], []      # kept are times, how many events came, and the worlds
        self.is_cut, self.widest, self.fault, self.known = False, 1, "", ()
        self.stuck = None           # the event that had no place, if one had none
        self.split = []             # the changes of widths that went from CPU to CPU

    def run(self):
        """The order; or None, and `fault` then says why. A kernel changes a width on one CPU after the other. Where an
        event has no place, it is tried whether it has one if the last changes before it did that."""
        listed = self.log.events
        order = self.go_on(listed, [])
        while order is None and not self.is_cut:
            stuck, fault, kept = self.stuck, self.fault, self.kept
            for change in self.changes_before(listed, stuck):
                parts = [*self.log.parts(change)]
                others = [part for it in listed for part in (parts if it is change else (it,))]
                order = self.go_on(others, [it for it in kept if it[0] < change.low])
                if order is not None or (stuck and (not self.stuck or self.stuck.number > stuck.number)):
                    listed = others
                    self.split.append(change)
                    break
            else:
                self.stuck, self.fault = stuck, fault
                return None
        return order

    @staticmethod
    def changes_before(listed, stuck):
        """The changes of widths among the last events before one, the last change first."""
        at = next((at for at, it in enumerate(listed) if it is stuck), len(listed))
        near = [it for it in listed[max(at - NEAR, 0):at + NEAR] if it.kind in events.WIDTHS and len(it.cpus) > 1]
        return sorted((it for it in near if not stuck or it.low < stuck.high), key=lambda it: -it.high)

    def go_on(self, listed, kept):
        """The order, found anew from the last worlds that are kept."""
        _, first, self.worlds = kept[-1] if kept else (0, 0, [self.first])
        self.kept, self.stuck = kept, None
        by_low, opened, going_on = sorted(listed[first:], key=lambda it: it.low), 0, {}
        for at in range(first, len(listed)):
            event = listed[at]
            while opened < len(by_low) and by_low[opened].low <= event.high:
                going_on[by_low[opened].number] = by_low[opened]
                opened += 1
            going_on.pop(event.number, None)
            if not self.step(event, going_on.values()):
                self.fault, self.stuck = f"no order of the events has a place for {event.text()}", event
                return None
            if at % KEPT == KEPT - 1:
                self.kept.append((event.high, at + 1, self.worlds))
        idle = [it for it in self.worlds if it.state.is_idle()]
        if not idle:
            self.fault = self.unended()
            return None
        best = min(idle, key=lambda it: len(it.left_out))
        self.known = best.left_out
        return best.events()

    def unended(self):
        state = self.worlds[0].state
        parts = [f"item {it} is never started" for it, of in enumerate(state.waiting) if of]
        parts += [f"the timer of item {it} never expires" for it, of in enumerate(state.booked) if of]
        return "; ".join(parts + [f"the run of item {it} never ends" for it, of in enumerate(state.runs) if of])

    def step(self, event, going_on):
        """Takes an event whose latest time has come. Whether a world is left."""
        found = {}
        eager = [it for it in going_on if it.is_eager]
        others = [it for it in going_on if not (it.is_eager or it.is_at_its_time or it.low == it.high)]
        for world in self.worlds:
            world = self.hurried(world, eager + [event] * event.is_eager, event)
            if event.number in world.ahead:
                after = [world.passed(event)]
            else:
                after = [it.passed(event) for it in self.before(world, event, others, eager)]
                after += [world.without(event)] if event.known_as else []
            for it in after:
                old = found.setdefault(it.key(), it)
                if len(it.left_out) < len(old.left_out):
                    found[it.key()] = it
        if not found:
            return False
        self.worlds = [*found.values()]
        self.widest = max(self.widest, len(self.worlds))
        if len(self.worlds) > self.most:
            self.is_cut, self.worlds = True, self.worlds[:self.most]
        return True

    def after(self, world, event, eager, now):
        new = world.with_event(event, now)
        return new and self.hurried(new, eager, now)

    def hurried(self, world, eager, now):
        """A world in which all that changes nothing else has come as soon as it may."""
        for it in eager:
            if it.number not in world.ahead:
                world = world.with_event(it, now) or world
        return world

    def before(self, world, event, others, eager):
        """The worlds in which an event has come, perhaps after some others that go on."""
        direct = self.after(world, event, eager, event)
        if direct:
            yield direct
        if event.is_at_its_time and direct and event.kind != "wake":
            return
        others = [it for it in others if it.number not in world.ahead]
        near = [it for it in others if it.touches & event.touches]
        if direct:
            near = [it for it in near if not self.commute(world, it, event, direct, eager)]
        if not near:
            return
        near = closure(near, others)
        seen, left = {world.key()}, [(world, direct)]
        while left:
            at, at_direct = left.pop()
            for it in near:
                new = None if it.number in at.ahead else self.after(at, it, eager, event)
                if new is None or new.key() in seen:
                    continue
                seen.add(new.key())
                new_direct = self.after(new, event, eager, event)
                left.append((new, new_direct))
                if new_direct:
                    late = at_direct and self.after(at_direct, it, eager, event)
                    if not late or late.key() != new_direct.key():
                        yield new_direct

    def commute(self, world, other, event, direct, eager):
        """Whether two events leave the same in either order."""
        first = self.after(world, other, eager, event)
        if first is None:
            return False
        one, two = self.after(first, event, eager, event), self.after(direct, other, eager, event)
        return one is not None and two is not None and one.key() == two.key()


def closure(near, others):
    """Those that concern these, or others that do."""
    found, left = list(near), [it for it in others if it not in near]
    touched = frozenset().union(*(it.touches for it in found))
    while True:
        more = [it for it in left if it.touches & touched]
        if not more:
            return found
        found += more
        touched = touched.union(*(it.touches for it in more))
        left = [it for it in left if it not in more]
