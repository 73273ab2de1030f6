"""Hubs in an event loop of asyncio, and the handles of their queues and items."""
import asyncio
import weakref
from typing import Any, Awaitable, Callable, Dict, Optional, TextIO

from . import _errors as errors
from . import _library as library
from ._aio_shell import AsyncRun, AsyncShell
from ._handles import BaseHub, BaseItem, BaseQueue
from ._options import QueueOptions

Work = Callable[[AsyncRun], Awaitable[Any]]


class AsyncItem(BaseItem):
    __doc__ = BaseItem.__doc__

    def __del__(self) -> None:
        if hasattr(self, "_number"):
            self._shell.free.append(self._number)

    async def _wait(self, kind: int, raise_errors: bool = False) -> bool:
        reply = await self._shell.wait(kind, self._number, 0)
        try:
            return self._told(reply, raise_errors)
        finally:
            del self  # an exception that is kept has this frame

    async def cancel_sync(self) -> bool:
        """Cancels the item if it is pending, which is returned, and waits until it is not running. Meanwhile it can't
        be queued. (cancel_delayed_work_sync())"""
        return await self._wait(library.CANCEL_SYNC)

    async def flush(self, *, raise_errors: bool = False) -> bool:
        """Waits until the item has ended, if it is queued or running. Returns False if it is neither. (flush_work())

        raise_errors: if the last run of the item that has ended has raised, then this raises the same exception."""
        try:
            return await self._wait(library.FLUSH_ITEM, raise_errors)
        finally:
            del self

    async def flush_delayed(self, *, raise_errors: bool = False) -> bool:
        """Queues the item at once if it is delayed, and waits as `flush` does. (flush_delayed_work())"""
        try:
            return await self._wait(library.FLUSH_DELAYED, raise_errors)
        finally:
            del self


class AsyncQueue(BaseQueue):
    __doc__ = BaseQueue.__doc__

    def item(self, work: Work, cpu: Optional[int] = None) -> AsyncItem:
        """Makes an item of this queue, also as a decorator, on this CPU or one that is chosen once. The work function
        is a coroutine function. At most one run of it is going on at a time."""
        return AsyncItem(self, work, self._checked(work, cpu))

    async def flush(self) -> None:
        """Waits until everything that was queued on the queue has ended. (flush_workqueue())"""
        await self._shell.wait(library.FLUSH, 0, self._number)

    async def drain(self) -> None:
        """Waits until nothing is queued on the queue. Meanwhile only its own runs may queue on it. If the task is
        cancelled, the queue is drained on. (drain_workqueue())"""
        await self._shell.wait(library.DRAIN, 0, self._number)

    async def destroy(self) -> None:
        """Drains the queue, which takes nothing from then on. (destroy_workqueue())"""
        await self._shell.wait(library.DESTROY, 0, self._number)


class AsyncHub(BaseHub):
    """Queues in an event loop of asyncio: no thread for a worker, a wait or the clock. It is made in a coroutine, and
    all calls are made in the loop's thread. The end of `async with` shuts it down.

    A work function is a coroutine function, and its run a task. A run that awaits sleeps, so another item of its pool
    can run. A call that waits, also one of a run, is left where its task is cancelled. What blocks instead of awaiting
    holds up the loop, and nobody sees it.

    cpus, items, queues, tick, on_error, room and keep are as of `Hub`. workers: so many runs of each CPU's pool may go
    on at once. waits: how many calls wait at once, 1 to 254; others wait in line. history: a text file to which the
    history is written, in the loop's thread, each entry within a tenth of a second.
    """

    def __init__(self, *, workers: int = 64, cpus: int = 1, queues: Optional[Dict[str, QueueOptions]] = None,
                 items: int = 256, waits: int = 254, tick: float = 0.001, history: Optional[TextIO] = None,
                 on_error: Optional[Callable[[AsyncItem, BaseException], Any]] = None, room: int = 2 ** 62,
                 keep: int = 1024) -> None:
        shape, shapes, head = self._set_up(workers, cpus, queues, items, waits, room, on_error)
        keep, tick = self._checked(keep, tick, history)
        self._handles: "weakref.WeakValueDictionary[str, AsyncQueue]" = weakref.WeakValueDictionary()
        self._is_told = False
        self._shell = AsyncShell(shape, shapes, keep, tick, history, head)

    async def __aenter__(self) -> "AsyncHub":
        return self

    async def __aexit__(self, kind: Any, *_: Any) -> None:
        """Shuts down. If the block has raised, then what runs is cancelled, and what is queued does nothing."""
        if kind is not None:
            self._shell.cancel()
        try:
            await self.shutdown()
        except (errors.NotRun, errors.WorkError, errors.HistoryError):
            if kind is None:
                raise

    def queue(self, name: str) -> AsyncQueue:
        """Returns the queue of this name."""
        number = self._number_of(name)
        found = self._handles.get(name)
        if found is None:
            found = self._handles[name] = AsyncQueue(self, name, number)
        return found

    def item(self, work: Work, cpu: Optional[int] = None) -> AsyncItem:
        """Makes an item of the first queue, as `AsyncQueue.item` does."""
        return self.queue(self._names[0]).item(work, cpu)

    async def _each(self, call: Callable[[AsyncQueue], Awaitable[None]]) -> None:
        for name in self._names:
            try:
                await call(self.queue(name))
            except errors.Gone:
                pass

    async def flush(self) -> None:
        """Flushes each queue in turn. In a work function that is refused, since its run is on one of them."""
        await self._each(AsyncQueue.flush)

    async def drain(self) -> None:
        """Drains each queue in turn."""
        await self._each(AsyncQueue.drain)

    async def shutdown(self) -> None:
        """Takes no more work, thaws, cancels what is delayed, lets what is queued run, and waits until all has ended.
        What a run queues is run too. What it delays is refused. If the task is cancelled, the hub ends all the same,
        and another call waits for that. Once it has ended, another call does nothing.

        Raises HistoryError, NotRun, or WorkError from the first exception of a work function. In a work function it
        raises Itself, and the hub ends."""
        shell = self._shell
        shell.enter()
        shell.stop()
        if shell.run is not None:
            raise errors.Itself("a run can't wait for the end of its hub, which ends without it")
        await asyncio.shield(shell.over)
        if not self._is_told:
            self._is_told = True
            self._tell()

    def __repr__(self) -> str:
        shell = self._shell
        state = (" (shut down)" if shell.over.done() else " (ending)") if shell.stopped else ""
        return (f"<cmwq.AsyncHub{state} {', '.join(map(repr, self._names))}: CPUs {shell.shape.cpus}, workers "
                f"{shell.shape.workers}, items pending or running {len(shell.busy)}>")
