"""Wrong rules, each of which the logs of a kernel under load must refute."""
from flat import State


class OfQueue(State):
    def place(self, queue, cpu):
        return queue * self.shape.cpus


class NamedCpu(State):
    def cpu_of(self, item, cpu):
        return cpu


class ByQueueing(State):
    def activate(self, item, queue, cpu):
        super().activate(item, queue, cpu)
        pool = self.shape.pool(queue, cpu)
        self.set("worklists", pool, tuple(sorted(self.worklists[pool], key=lambda it: self.waiting[it][0])))


class NewestFirst(State):
    def activate(self, item, queue, cpu):
        super().activate(item, queue, cpu)
        pool = self.shape.pool(queue, cpu)
        self.set("worklists", pool, (item, *self.worklists[pool][:-1]))


class InTurn(State):
    def next_of(self, pool):
        return next((it for it in self.worklists[pool][:1] if not self.runs[it]), None)


class AsleepHolds(State):
    def holds(self, run, pool):
        return super().holds((*run[:3], False), pool)


class IntensiveHolds(State):
    def holds(self, run, pool):
        _, queue, cpu, is_asleep = run
        return not is_asleep and self.shape.pool(queue, cpu) == pool


class OtherPoolHolds(State):
    def holds(self, run, pool):
        return super().holds(run, pool) or super().holds(run, pool ^ 1)


class FlushesForLater(State):
    def is_ready(self, wait):
        return not (self.open_of_queue if wait.kind == "flush" else self.open_of_item)(*wait.words)


class FlushesForBooked(State):
    def is_ready(self, wait):
        return super().is_ready(wait) and (wait.kind != "flush" or not any(
            it and it[0] == wait.words[0] for it in self.booked))


class WidthOfNext(State):
    def fill_all(self, queue, cpus):
        pass


class FrozenGoesOn(State):
    def width(self, queue, cpu):
        return self.widths[self.place(queue, cpu)]


class CancelStays(State):
    def fill(self, queue, cpu):
        """Only at the end of a run, whose item then runs no more."""
        if not self.is_taking_back:
            super().fill(queue, cpu)

    def take_back(self, item):
        type(self).is_taking_back = True
        super().take_back(item)
        type(self).is_taking_back = False

    is_taking_back = False


class QueuesInCancel(State):
    def is_taken(self, item):
        return False


RULES = {
    "max_active is of a queue on all CPUs": OfQueue,
    "an item that is queued while it runs goes to the CPU of the call": NamedCpu,
    "the worklist is ordered by when items were queued": ByQueueing,
    "the item that became active last starts first": NewestFirst,
    "an item that runs holds up those after it": InTurn,
    "a run that sleeps holds up others": AsleepHolds,
    "a CPU-intensive run holds up others": IntensiveHolds,
    "a run holds up the other pool of its CPU": OtherPoolHolds,
    "flush and flush_item wait for what is queued later": FlushesForLater,
    "a flush waits for booked items": FlushesForBooked,
    "set_max makes nothing active": WidthOfNext,
    "a frozen queue has the width that it had": FrozenGoesOn,
    "a cancel makes nothing active": CancelStays,
    "an item is queued during its cancel_sync": QueuesInCancel,
}
