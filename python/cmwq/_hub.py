"""Hubs with threads, and the handles of their queues and items."""
import atexit
import threading
import time
import weakref
from typing import Any, Callable, Dict, Optional, TextIO, overload

from . import _arguments as arguments
from . import _errors as errors
from . import _fork  # noqa: F401 (it is told of forks)
from . import _library as library
from ._durable import Disk, DurableJournal, DurableShell, DurableWorker
from ._handles import BaseHub, BaseItem, BaseQueue
from ._options import QueueOptions
from ._run import Run
from ._shell import ABORT, END, LEAVE, OPEN_IT, Shell, here, open_shells
from ._threads import Clock, Journal, Worker


class Item(BaseItem):
    __doc__ = BaseItem.__doc__

    @property
    def name(self) -> Optional[str]:
        """The name that the item was given, as those of durable hubs are."""
        return self._name

    def _wait(self, kind: int, timeout: Optional[float], raise_errors: bool = False) -> bool:
        reply = self._shell.wait(kind, self._number, 0, timeout)
        try:
            return self._told(reply, raise_errors)
        finally:
            del self  # an exception that is kept has this frame

    def cancel_sync(self, timeout: Optional[float] = None) -> bool:
        """Cancels the item if it is pending, which is returned, and waits until it is not running. Meanwhile it can't
        be queued. (cancel_delayed_work_sync())"""
        return self._wait(library.CANCEL_SYNC, timeout)

    def flush(self, timeout: Optional[float] = None, *, raise_errors: bool = False) -> bool:
        """Waits until the item has ended, if it is queued or running. Returns False if it is neither. (flush_work())

        raise_errors: if the last run of the item that has ended has raised, then this raises the same exception."""
        try:
            return self._wait(library.FLUSH_ITEM, timeout, raise_errors)
        finally:
            del self

    def flush_delayed(self, timeout: Optional[float] = None, *, raise_errors: bool = False) -> bool:
        """Queues the item at once if it is delayed, and waits as `flush` does. (flush_delayed_work())"""
        try:
            return self._wait(library.FLUSH_DELAYED, timeout, raise_errors)
        finally:
            del self


class Queue(BaseQueue):
    __doc__ = BaseQueue.__doc__

    @overload
    def item(self, work: Callable[[Run], Any], cpu: Optional[int] = None, *, name: Optional[str] = None) -> Item:
        ...

    @overload
    def item(self, *, cpu: Optional[int] = None, name: str) -> Callable[[Callable[[Run], Any]], Item]:
        ...

    def item(self, work: Any = None, cpu: Optional[int] = None, *, name: Optional[str] = None) -> Any:
        """Makes an item of this queue, also as a decorator, on this CPU or one that is chosen once. At most one run of
        its work function is going on at a time. (INIT_WORK())

        name: of an item of a durable hub, which must be made before the hub is opened. With a name alone, the call
        returns a decorator."""
        if name is not None:
            arguments.text("name", name)
            if work is None:
                return lambda work: self.item(work, cpu, name=name)
        return Item(self, work, self._checked(work, cpu), name)

    def flush(self, timeout: Optional[float] = None) -> None:
        """Waits until everything that was queued on the queue has ended. (flush_workqueue())"""
        self._shell.wait(library.FLUSH, 0, self._number, timeout)

    def drain(self, timeout: Optional[float] = None) -> None:
        """Waits until nothing is queued on the queue. Meanwhile only its own runs may queue on it. After a timeout the
        queue is drained on. (drain_workqueue())"""
        self._shell.wait(library.DRAIN, 0, self._number, timeout)

    def destroy(self) -> None:
        """Drains the queue, which takes nothing from then on. (destroy_workqueue())"""
        self._shell.wait(library.DESTROY, 0, self._number, None)


class Hub(BaseHub):
    """Queues with their threads. The end of `with` shuts it down, and so does the program's end. It is also shut down
    once it and all handles of its queues and items are gone, and nothing is pending or running.

    With `durable`, the path of a file, its work outlives the program: the next hub with this file takes over what was
    queued, delayed or running. Such a hub is opened by `with` or `resume`, once its items are made, which have names.
    The end of `with` leaves it, and so does the program's end.

    cpus: 1 to 64 numbers, not processors. Each has a pool of `workers` threads, 1 to 64, and one of high priority if a
    queue has that option. items: how many there may be at once, 1 to 65,535. queues: their names and options; without
    it there is one, "default". waits: how many calls may wait at once, 1 to 254. tick: the unit of delays in seconds, a
    microsecond or more. history: a text file to which the history is written; a thread writes each entry within a tenth
    of a second. on_error: is called in a work function's thread, with the item and the exception, if the function has
    raised. room: how many entries there may be. keep: how many are kept before they are written or dropped.

    sync: when an entry of a durable hub counts as durable: "data", after fdatasync(), so that it outlives a power
    failure; "write", after write(), so that it outlives the program; or "none": nobody waits. each: calls of no run
    return once their entries are durable. again: is asked, while the hub is opened, with the name of each item whose
    run was broken off, whether it is queued again. keep_old: the last journal stays, with ".1" after its name.
    """

    def __init__(self, *, workers: int = 4, cpus: int = 1, queues: Optional[Dict[str, QueueOptions]] = None,
                 items: int = 256, waits: int = 63, tick: float = 0.001, history: Optional[TextIO] = None,
                 on_error: Optional[Callable[[Item, BaseException], Any]] = None, room: int = 2 ** 62,
                 keep: int = 1024, durable: Any = None, sync: str = "data", each: bool = False,
                 again: Optional[Callable[[str], Any]] = None, keep_old: bool = False) -> None:
        shape, shapes, head = self._set_up(workers, cpus, queues, items, waits, room, on_error)
        keep, tick = self._checked(keep, tick, history)
        self._handles: Dict[str, "weakref.ref[Queue]"] = {}
        self._is_told, self._is_high = False, any(it.high for it in shapes)
        if durable is None:
            self._shell: Any = Shell(shape, shapes, keep, tick, history)
            try:
                self._start_all(head)
            except BaseException as why:
                self._shell.clock.put(ABORT)
                if not any(thread.ident for thread in self._shell.threads[:1]):  # nothing has started
                    open_shells.discard(self._shell)
                elif isinstance(why, errors.NoThread):
                    self._join()
                raise
        elif history is not None:
            raise errors.Invalid("a durable hub has no history: its journal is one")
        else:
            self._shell = DurableShell(shape, shapes, keep, tick, Disk(durable, sync, each, again, keep_old))

    def _durable(self) -> DurableShell:
        if not isinstance(self._shell, DurableShell):
            raise errors.Invalid(f"{self!r} is not durable")
        return self._shell

    def resume(self) -> None:
        """Opens a durable hub, as the beginning of `with` does: takes over what the last life has left, and starts the
        threads. An open hub stays as it is. What raises leaves the journal as it was, or as one with the same work.

        Raises InUse, BadJournal, OtherShape, DiskFailed, NoThread, and Closed if the hub has ended. Then, and where an
        exception such as KeyboardInterrupt has come in once the threads were being started, another hub is needed."""
        shell = self._durable()
        if not shell.is_open or shell.closing:
            try:
                shell.take_over(self._start_all)
            except errors.NoThread:
                self._join()
                raise

    def _start_all(self, head: str = "") -> None:
        shell, is_durable = self._shell, isinstance(self._shell, DurableShell)
        clock, worker = Clock(shell), DurableWorker if is_durable else Worker
        journal = DurableJournal(shell) if is_durable else Journal(shell, head)
        open_shells.add(shell)
        # tells the clock once this object is gone
        shell.owner = weakref.ref(self, shell.clock.put)
        self._start("cmwq clock", clock.keep_time)
        if shell.history is not None:
            self._start("cmwq journal", journal.keep)
        for cpu in range(shell.shape.cpus):
            for kind in [library.WORKER] + [library.HIGH_WORKER] * self._is_high:
                for index in range(shell.shape.workers):
                    shell.workers.add((kind, index, cpu))
                    name = f"cmwq {cpu}{'n' if kind == library.WORKER else 'h'}{index}"
                    self._start(name, worker(shell, (kind, index, cpu)).work)
        if is_durable:
            shell.clock.put(OPEN_IT)
            shell.wait_for_begin()
            if not shell.is_open:  # a signal handler has ended it
                raise shell.closed()

    def _start(self, name: str, body: Callable[[], None]) -> None:
        shell, thread = self._shell, threading.Thread(target=body, name=name, daemon=True)
        shell.threads.append(thread)
        try:
            shell.is_forked or thread.start()
        except RuntimeError as why:
            if not shell.is_forked:
                raise errors.NoThread(f"the thread {name} could not be started: {why}") from why
        if shell.is_forked:  # a signal handler has forked, and this is the new process
            raise shell.closed()

    def __enter__(self) -> "Hub":
        if isinstance(self._shell, DurableShell):
            self.resume()
        return self

    def __exit__(self, kind: Any, *_: Any) -> None:
        try:
            self._end(LEAVE if isinstance(self._shell, DurableShell) else END)
        except (errors.NotRun, errors.WorkError, errors.HistoryError, errors.DiskFailed):
            if kind is None:
                raise

    def queue(self, name: str) -> Queue:
        """Returns the queue of this name."""
        number = self._number_of(name)
        found = self._handles[name]() if name in self._handles else None
        if found is None:
            found = Queue(self, name, number)
            self._handles[name] = weakref.ref(found)  # a callback of it could swallow what a signal handler raises
        return found

    @overload
    def item(self, work: Callable[[Run], Any], cpu: Optional[int] = None, *, name: Optional[str] = None) -> Item:
        ...

    @overload
    def item(self, *, cpu: Optional[int] = None, name: str) -> Callable[[Callable[[Run], Any]], Item]:
        ...

    def item(self, work: Any = None, cpu: Optional[int] = None, *, name: Any = None) -> Any:
        """Makes an item of the first queue, as `Queue.item` does. (INIT_WORK())"""
        return self.queue(self._names[0]).item(work, cpu, name=name)

    def _each(self, call: Callable[[Queue, Optional[float]], None], timeout: Optional[float]) -> None:
        deadline = arguments.deadline(timeout)
        for name in self._names:
            try:
                call(self.queue(name), None if deadline is None else max(deadline - time.monotonic(), 0))
            except errors.Gone:
                pass

    def flush(self, timeout: Optional[float] = None) -> None:
        """Flushes each queue in turn. In a work function that is refused, since its run is on one of them."""
        self._each(Queue.flush, timeout)

    def drain(self, timeout: Optional[float] = None) -> None:
        """Drains each queue in turn."""
        self._each(Queue.drain, timeout)

    def shutdown(self) -> None:
        """Takes no more work, thaws, cancels what is delayed, lets what is queued run, and joins all threads. What a
        run queues is run too. What it delays is refused. If an exception such as KeyboardInterrupt cuts it off, the hub
        ends all the same, and another call waits for that. Once it has ended, another call does nothing.

        Raises DiskFailed, HistoryError, NotRun, or WorkError from the first exception of a work function. In a thread
        of the hub it raises Itself, and the hub ends. A durable hub leaves nothing to the next life then."""
        self._end(END)

    def leave(self) -> None:
        """Ends a durable hub as the end of `with` does: starts nothing more, lets the runs end, and joins all threads.
        What is queued or delayed stays for the next life, also what the runs queue meanwhile. Calls that wait raise
        Stopped. It is cut off, and raises, as `shutdown` does."""
        self._durable()
        self._end(LEAVE)

    def sync(self) -> None:
        """Waits until all calls that were made on a durable hub so far are durable, also in a work function. Those who
        wait share one fdatasync().

        Raises NotDurable, DiskFailed, and Closed. If an exception such as KeyboardInterrupt cuts it off, the calls
        become durable all the same."""
        self._durable().sync()

    def _end(self, how: str) -> None:
        shell, own = self._shell, threading.get_ident()
        if shell.is_forked:
            return
        if not shell.ended:
            shell.enders.add(own)
            shell.clock.put(how)
            shell.end_unopened()
        if getattr(here, "owner", None) is shell:
            raise errors.Itself("a thread of the hub can't join itself: the hub ends without it")
        self._join()
        shell.enders.discard(own)
        try:
            if not self._is_told:
                self._tell()
        except errors.Error:
            self._is_told = True
            raise

    def _join(self) -> None:
        shell = self._shell
        shell.end.wait(lambda: shell.ended)
        for clock in shell.threads[:1]:
            if clock.ident is not None:
                clock.join(1)  # it only returns now

    def _tell(self) -> None:
        if isinstance(self._shell, DurableShell) and self._shell.disk.failed is not None:
            raise self._shell.closed()
        super()._tell()

    def __repr__(self) -> str:
        shell, state = self._shell, "" if self._shell.is_open else " (not open yet)"
        if shell.closing:
            state = " (shut down)" if shell.ended else " (ending)"
        if shell.is_forked:
            state = " (of the process that was forked)"
        busy = sum(bool(puts) for puts in shell.puts)
        return (f"<cmwq.Hub{state} {', '.join(map(repr, self._names))}: CPUs {shell.shape.cpus}, workers "
                f"{shell.shape.workers}, items pending or running {busy}>")


@atexit.register
def _shut_down_all() -> None:
    ending = [shell for shell in list(open_shells) if shell.threads and shell.threads[0].ident is not None]
    for shell in ending:
        shell.clock.put(LEAVE)  # of one that is not durable, the same as END
    for shell in ending:
        shell.end.wait(lambda: shell.ended)
