"""The exceptions."""
from typing import Any, Sequence


class Error(Exception):
    """The base class of all exceptions of this package. A call that raises changes nothing, unless its exception says
    otherwise."""


class Invalid(Error, ValueError):
    """An argument is outside its limits."""


class VersionMismatch(Error):
    """The library has another version than this package."""


class NoMemory(Error, MemoryError):
    """There is no memory."""


class NoThread(Error, RuntimeError):
    """A thread could not be started."""


class NoItem(Error):
    """All items of the hub are in use."""


class Closed(Error):
    """The hub is shut down. In a process that was forked it is closed from the beginning."""


class Stopped(Closed):
    """The hub is being left, so the call is refused, or its wait is left. A run whose wait raises it counts as broken
    off."""


class DiskFailed(Error):
    """The disk of a durable hub has failed, for good: no call is made any more. Its cause says how."""


class NotDurable(DiskFailed):
    """The call was made, but the disk failed before it was durable. So the next life may or may not know of it."""


class InUse(Error):
    """Another hub has the durable journal."""


class BadJournal(Error, ValueError):
    """The durable journal is not the front of a legal history. `line` is the number of the line that is wrong."""

    def __init__(self, text: str, line: int = 0) -> None:
        super().__init__(text)
        self.line = line


class OtherShape(Error, ValueError):
    """The durable journal has more items, queues or CPUs than the hub."""


class RunEnded(Error):
    """The run has ended, so it makes no calls any more."""


class Full(Error):
    """The room for entries is used up."""


class Foreign(Error):
    """The item runs on another queue."""


class Draining(Error):
    """The queue is being drained or destroyed."""


class Gone(Error):
    """The queue is destroyed."""


class Timers(Error):
    """An item is delayed on the queue, so the queue can't be destroyed."""


class Itself(Error):
    """A work function would wait for its own run."""


class Deadlock(Error):
    """A work function would wait for something that can't end before the work function itself."""


class TooManyWaits(Error):
    """As many calls wait as may."""


class TimedOut(Error, TimeoutError):
    """The time limit has passed. The wait has begun, and the library ends it later: until then a queue that is being
    drained takes no work, and an item that is being cancelled can't be queued."""


class NotRun(Error):
    """Items were queued that did not run, since the hub has failed. `items` has them. Raised by `Hub.shutdown` and the
    end of `with`."""

    def __init__(self, text: str, items: Sequence[Any] = ()) -> None:
        super().__init__(text)
        self.items = tuple(items)


class WorkError(Error):
    """Work functions have raised. The first exception is its cause, and `errors` has all. Raised as `NotRun` is."""

    def __init__(self, text: str, errors: Sequence[BaseException] = ()) -> None:
        super().__init__(text)
        self.errors = tuple(errors)


class HistoryError(Error):
    """The history could not be written, and ends where that happened. Raised as `NotRun` is."""


class NotAHistory(Error, ValueError):
    """The text is not a history, or was cut off."""
