"""Workqueues with threads, as Linux has them: items of work that run one at a time each, queues that limit how many are
active, delays, and flushes and cancellations that wait. `AsyncHub` has them in an event loop of asyncio.

A CPU's pool runs one awake run of a plain queue at a time. So `workers=4` runs four items at once only if their queue
is CPU intensive, if they are on several CPUs, or if runs sleep, which they do in calls that wait and in `Run.block`.

    import cmwq
    with cmwq.Hub(workers=4) as hub:
        item = hub.item(lambda run: print("runs"))  # at most one run at a time
        item.queue()
        hub.flush(timeout=1)                        # what was queued has ended
        item.queue_delayed(60)
        item.cancel_sync()                          # neither pending nor running

Calls in a work function are calls of its run, by whatever handle. A run that waits sleeps meanwhile. A wait of a run
that could never end raises Itself or Deadlock. Every exception of this package is an Error, but an argument of the
wrong type raises TypeError. What work functions raise is logged by the logger "cmwq". With `Hub(durable=..)` work
outlives the program.
"""
from ._aio import AsyncHub, AsyncItem, AsyncQueue
from ._aio_shell import AsyncRun
from ._book import Book, Refused, Shape, check
from ._errors import (BadJournal, Closed, Deadlock, DiskFailed, Draining, Error, Foreign, Full, Gone, HistoryError,
                      InUse, Invalid, Itself, NoItem, NoMemory, NotAHistory, NotDurable, NotRun, NoThread, OtherShape,
                      RunEnded, Stopped, TimedOut, Timers, TooManyWaits, VersionMismatch, WorkError)
from ._hub import Hub, Item, Queue
from ._library import VERSION as __version__
from ._options import QueueOptions, max_active
from ._run import Block, Run

__all__ = ["AsyncHub", "AsyncItem", "AsyncQueue", "AsyncRun", "BadJournal", "Block", "Book", "Closed", "Deadlock",
           "DiskFailed", "Draining", "Error", "Foreign", "Full", "Gone", "HistoryError", "Hub", "InUse", "Invalid",
           "Item", "Itself", "NoItem", "NoMemory", "NoThread", "NotAHistory", "NotDurable", "NotRun", "OtherShape",
           "Queue", "QueueOptions", "Refused", "Run", "RunEnded", "Shape", "Stopped", "TimedOut", "Timers",
           "TooManyWaits", "VersionMismatch", "WorkError", "check", "max_active", "__version__"]
