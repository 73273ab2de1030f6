"""The shell over an event loop of asyncio: it makes calls of the board, and schedules in the loop what those do whom
the board has named. All is done in the loop's thread, so it has no lock.

A run is a task. It sleeps while it is suspended, and is awake in its steps.
"""
import asyncio
import collections
import contextvars
import ctypes
import threading
from typing import Any, Deque, Dict, Generator, List, Optional, Set, TextIO, Tuple

from . import _arguments as arguments
from . import _errors as errors
from . import _library as library
from ._handles import BaseRun, keep_error
from ._library import NONE, OK, lib
from ._report import let_go, report
from ._shell import CALLER_0, MADE, NOBODY, PENDING, TAKEN_BACK, Lines, outcome

# How long entries are kept at most before they are written, in seconds.
QUIET = 0.05

_pack, _unpack = library.CALL.pack_into, library.REPLY.unpack_from

_TEXT = 1 << 16


class AsyncRun(BaseRun):
    """A run of a work function, to which it is given. Calls in a work function are calls of its run, by whatever
    handle, but those of tasks that it makes are not. Once the run has ended, the calls below raise RunEnded."""

    def __init__(self, worker: Tuple[int, int, int], item: Any, queue: int, intensive: bool) -> None:
        super().__init__(worker, item)
        self._queue_number, self._intensive = queue, intensive
        self._asleep, self._suspended, self._over = False, False, False
        self._party: Optional[int] = None  # the caller that is lent to its wait
        self._next: "List[asyncio.Future[None]]" = []  # those who make the next wait of the run

    def _queue(self, item: Any) -> int:
        return self._queue_number


class Steps:
    """The steps of a run's coroutine. In each the run is awake and makes the calls, and between two it sleeps."""

    def __init__(self, shell: "AsyncShell", run: AsyncRun) -> None:
        self._shell, self._run = shell, run

    def __await__(self) -> Generator[Any, Any, None]:
        shell, run = self._shell, self._run
        before, shell.run = shell.run, run
        try:
            awaited = run._item._work(run)
            if not hasattr(awaited, "__await__"):
                raise TypeError(f"a work function returned {arguments.shown(awaited)}, which can't be awaited")
            steps = awaited.__await__()
        finally:
            shell.run = before
        thrown: Optional[BaseException] = None
        while True:
            before, shell.run = shell.run, run
            try:
                yielded = next(steps) if thrown is None else steps.throw(thrown)
            except StopIteration:
                return
            finally:
                shell.run, thrown = before, None
            shell.suspend(run)
            try:
                yield yielded
            except BaseException as why:  # such as a cancellation
                thrown = why
            shell.go_on(run)


class Wait:
    """A wait that goes on by a lent caller."""

    def __init__(self, future: "asyncio.Future[None]", run: Optional[AsyncRun]) -> None:
        self.future, self.run, self.status = future, run, OK


class AsyncShell:
    """What handles share."""

    def __init__(self, shape: library.Shape, shapes: Any, keep: int, tick: float, history: Optional[TextIO],
                 head: str) -> None:
        self.loop = asyncio.get_running_loop()
        self.context, self.thread = contextvars.copy_context(), threading.get_ident()
        self.shape, self.tick, self.history, self.begun = shape, tick, history, self.loop.time()
        self.most = self.next = keep
        shape.keep = keep + 2 * (shape.items + 2) + 256
        # from so many entries on there may be no room for a sleep
        self.scarce = shape.room - (5 * shape.items + 64 * shape.callers + 8)
        self.handle = library.Handle()
        self.board = ctypes.addressof(self.handle)
        library.done(lib.cmwq_board_open(self.board, ctypes.byref(shape), shapes, len(shapes), shape.callers - 1))
        self.lines = Lines(self.board)
        self.buffer = library.Buffer()
        self.at = ctypes.addressof(self.buffer)
        self.intensive = [bool(it.intensive) for it in shapes]
        kinds = [library.WORKER] + [library.HIGH_WORKER] * any(it.high for it in shapes)
        self.workers = [(kind, index, cpu) for cpu in range(shape.cpus) for kind in kinds
                        for index in range(shape.workers)]
        self.free = collections.deque(range(shape.items))
        self.busy: Dict[int, Any] = {}  # the items that are pending or running, by their numbers
        self.queues = [0] * shape.items  # on which each was queued last
        self.run: Optional[AsyncRun] = None  # that whose step this is
        self.runs: Dict[Tuple[int, int, int], AsyncRun] = {}
        self.tasks: Dict[Tuple[int, int, int], "asyncio.Task[None]"] = {}
        self.scheduled: Set[Any] = set()
        self.waits: Dict[int, Wait] = {}
        self.line: "Deque[asyncio.Future[None]]" = collections.deque()  # waits that begin once a caller may be lent
        self.timer: Optional[asyncio.TimerHandle] = None
        self.due, self.set_for = library.NEVER, library.NEVER
        self.stopped, self.cancelled, self.armed = False, False, False
        self.over: "asyncio.Future[None]" = self.loop.create_future()
        self.fault: Optional[BaseException] = None
        self.unrun: Tuple[Any, ...] = ()
        self.write(head)
        for worker in self.workers:
            self.schedule(self.start, worker)

    def __del__(self) -> None:
        if hasattr(self, "board"):
            lib.cmwq_board_close(self.board)

    # ---- the board ----

    def enter(self) -> None:
        """Raises unless a call can be made here."""
        if threading.get_ident() != self.thread:
            raise errors.Invalid("a call from another thread than that of the event loop")
        if self.loop.is_closed():
            raise errors.Closed("the event loop of the hub is closed")

    def make(self, call: Any, *words: Any) -> int:
        """Makes a call of the board, and schedules those whom it names."""
        if lib.cmwq_board_len(self.board) >= self.next:
            self.hand_out()
        status = int(call(self.board, *words, self.at + library.WAKES_AT))
        if status in MADE:
            wakes = self.buffer[library.WAKES]
            if wakes != NOBODY:
                self.name(wakes)
        if not self.armed and self.history is not None:
            self.armed = True
            self.loop.call_later(QUIET, self.write_all, context=self.context)
        if self.line and lib.cmwq_board_news(self.board) & library.LEFT_ENDED:
            self.wake_next()
        return status

    def name(self, wakes: bytes) -> None:
        for at in range(0, 24, 3):
            if wakes[at] == library.NOBODY:
                break
            self.schedule(self.start, (wakes[at], wakes[at + 1], wakes[at + 2]))
        for at in range(24, 32):
            if wakes[at] == library.NOBODY:
                break
            self.schedule(self.end, wakes[at])
        if wakes[32] or wakes[33]:
            for worker in self.workers:
                self.schedule(self.start, worker)
            for party in self.waits:
                self.schedule(self.end, party)
        if wakes[34]:  # a drain has ended: there may be timers that it has held back
            self.due = 0
            self.set_timer()

    def schedule(self, what: Any, whose: Any) -> None:
        if whose not in self.scheduled:
            self.scheduled.add(whose)
            self.loop.call_soon(what, whose, context=self.context)

    def who(self) -> Tuple[int, int, int]:
        """Whose call it is: the run's whose step this is, which is awake then, or nobody's."""
        run = self.run
        return run._worker if run is not None and self.wake(run) else CALLER_0

    def pack(self, who: Tuple[int, int, int], kind: int, number: int = 0, queue: int = 0, cpu: int = 0,
             ticks: int = 0) -> int:
        _pack(self.buffer, 0, 0, ticks, number, kind, queue, cpu, *who, NONE)
        return self.at

    def call(self, who: Tuple[int, int, int], *words: int) -> Tuple[int, int]:
        """A call of one entry. Returns the kind of the reply, or minus a status, and the reply's number."""
        at = self.pack(who, *words)
        status = self.make(lib.cmwq_board_call, at, at + library.REPLY_AT)
        number, _, _, kind = _unpack(self.buffer, library.REPLY_AT)
        return (kind, number) if status == OK else (-status, 0)

    def one(self, kind: int, number: int = 0, queue: int = 0, ticks: int = 0) -> Tuple[int, int]:
        self.enter()
        made, value = self.call(self.who(), kind, number, queue, 0, ticks)
        if made in TAKEN_BACK:
            self.settle(number)
        return outcome(made), value

    def freeze(self) -> int:
        return self.one(library.FREEZE)[0]

    def state_of(self, number: int) -> library.ItemState:
        state = library.ItemState()
        lib.cmwq_board_item(self.board, number, ctypes.byref(state))
        return state

    item_state = state_of

    # ---- items ----

    def add(self, item: Any) -> int:
        """Gives the item a number, which __del__ of the item gives back."""
        self.enter()
        if self.stopped and self.run is None or self.over.done():
            raise errors.Closed("the hub is shut down")
        try:
            return self.free.popleft()
        except IndexError:
            raise errors.NoItem(f"all {self.shape.items} items of the hub are in use") from None

    def settle(self, number: int) -> None:
        """Lets an item go that is neither pending nor running."""
        state = self.state_of(number)
        if not state.pending and not state.runs:
            self.busy.pop(number, None)

    def put(self, kind: int, item: Any, queue: int, cpu: int, ticks: int = 0) -> int:
        self.enter()
        made, number = self.call(self.who(), kind, item._number, queue, cpu, ticks)
        if made in PENDING:
            self.busy[item._number] = item
            self.queues[item._number] = queue
            if made in (library.BOOKED, library.REBOOKED) and number < self.due:
                self.due = number
                self.set_timer()
        return outcome(made)

    put_of_many = put

    def made_many(self) -> None:
        pass

    # ---- runs ----

    def sleep(self, run: AsyncRun) -> None:
        """The run sleeps from now on, if there is room for that."""
        if not run._asleep:
            run._asleep = self.call(run._worker, library.SLEEP)[0] == library.SLEPT

    def wake(self, run: AsyncRun) -> bool:
        """The run is awake from now on. This is not so, where there may be no room for its next sleep, as long as it
        waits: what it waits for could not start then."""
        if run._asleep:
            if run._party is not None and lib.cmwq_board_len(self.board) >= self.scarce:
                return False
            self.call(run._worker, library.WAKE)
            run._asleep = False
        return True

    def suspend(self, run: AsyncRun) -> None:
        run._suspended = True
        if not run._intensive:
            self.sleep(run)

    def go_on(self, run: AsyncRun) -> None:
        run._suspended = False
        if run._party is None or not run._intensive:
            self.wake(run)

    def start(self, worker: Tuple[int, int, int]) -> None:
        """What a worker does that was named: it starts what its pool has."""
        self.scheduled.discard(worker)
        if worker in self.runs:
            return
        at = self.pack(worker, 0)
        status = self.make(lib.cmwq_board_start, at + library.WHO_AT, at + library.ITEM_AT, at + library.NUMBER_AT)
        if status == OK:
            number = int.from_bytes(self.buffer[library.ITEM_AT:library.ITEM_AT + 2], "little")
            queue = self.queues[number]
            run = self.runs[worker] = AsyncRun(worker, self.busy[number], queue, self.intensive[queue])
            task = self.tasks[worker] = self.loop.create_task(self.work(run))
            task.add_done_callback(lambda _: run._over or self.finish(run))  # it was cancelled before its first step
        elif status == library.OVER:
            self.end_all()

    async def work(self, run: AsyncRun) -> None:
        """The task of a run."""
        item = run._item
        try:
            if not self.cancelled:
                await Steps(self, run)
            item._error = None
        except asyncio.CancelledError:
            pass
        except (KeyboardInterrupt, SystemExit):
            raise
        except BaseException as why:
            keep_error(item, why, 2)
        finally:
            del item
            self.finish(run)

    def finish(self, run: AsyncRun) -> None:
        """The run ends, or sleeps until its wait has ended, if another task awaits that."""
        if self.loop.is_closed():
            return
        run._over, run._suspended = True, True
        if run._party is not None:
            self.sleep(run)
            return
        worker, number = run._worker, run._item._number
        self.wake(run)
        self.make(lib.cmwq_board_finish, self.pack(worker, 0) + library.WHO_AT)
        run._item = None  # its calls raise RunEnded
        del self.runs[worker], self.tasks[worker]
        self.settle(number)
        self.schedule(self.start, worker)

    # ---- waits ----

    async def wait(self, kind: int, number: int, queue: int) -> int:
        """A call that waits. Returns the kind of the reply with which it began."""
        self.enter()
        turn: "Optional[asyncio.Future[None]]" = None
        while True:
            run = self.run
            if run is not None and run._party is not None:
                turn = self.loop.create_future()  # a run has one wait at a time, so that the board knows of each
                run._next.append(turn)
                await turn
                continue
            who = self.who() if run is not None else CALLER_0
            at = self.pack(who, kind, number, queue)
            status = self.make(lib.cmwq_board_begin, at, at + library.PARTY_AT, at + library.REPLY_AT)
            reply = int(_unpack(self.buffer, library.REPLY_AT)[3])
            if run is None and (status == library.NO_CALLER or (status == OK and reply == library.CROWD)):
                turn = await self.stand_in_line(turn)
                continue
            break
        party = int(self.buffer[library.PARTY_AT][0])
        if status in (OK, library.WAITS) and reply in TAKEN_BACK:
            self.settle(number)
        if turn is not None and run is None:
            self.wake_next()  # the next one may begin too
        if status != library.WAITS:
            return outcome(reply if status == OK else -status)
        wait = self.waits[party] = Wait(self.loop.create_future(), run)
        if run is not None:
            run._party, run._asleep = party, True
        self.end(party)
        try:
            await wait.future
        except BaseException:  # it is cancelled
            self.leave(party, wait)
            raise
        library.done(wait.status)
        return reply

    async def stand_in_line(self, before: "Optional[asyncio.Future[None]]") -> "asyncio.Future[None]":
        """Waits until a caller may be lent. Whoever has had a turn in vain is the first again."""
        turn: "asyncio.Future[None]" = self.loop.create_future()
        if before is None:
            self.line.append(turn)
        else:
            self.line.appendleft(turn)
        try:
            await turn
        except BaseException:  # it is cancelled
            if turn in self.line:
                self.line.remove(turn)
            elif not turn.cancelled():
                self.wake_next()  # it was its turn: it is another's
            raise
        return turn

    def wake_next(self) -> None:
        """A caller may be lent: the first in line tries. If it begins, it wakes the next."""
        while self.line:
            turn = self.line.popleft()
            if not turn.done():  # nor cancelled
                turn.set_result(None)
                return

    def end(self, party: int) -> None:
        """Ends the wait by this caller, if it is ready."""
        self.scheduled.discard(party)
        wait = self.waits.get(party)
        if wait is None:
            return
        status = self.make(lib.cmwq_board_end, party)
        if status == library.LOOK_AGAIN:
            self.schedule(self.end, party)
        elif status != library.WAITS:
            wait.status = status
            if wait.run is not None and status == OK:
                wait.run._asleep = False  # its wake was made with the end
            self.is_over(party)

    def is_over(self, party: int) -> None:
        """Nobody waits by this caller any more."""
        wait = self.waits.pop(party)
        if not wait.future.done():
            wait.future.set_result(None)
        run = wait.run
        if run is not None:
            run._party = None
            following, run._next = run._next, []
            for turn in following:
                if not turn.done():
                    turn.set_result(None)
            if run._over:
                self.finish(run)
        self.wake_next()

    def leave(self, party: int, wait: Wait) -> None:
        """The call that waits is cancelled. A run that made it is awake again."""
        if self.waits.get(party) is not wait or self.loop.is_closed():
            return
        if self.make(lib.cmwq_board_leave, party) == OK:
            self.is_over(party)
            if wait.run is not None and wait.run is self.run:
                self.wake(wait.run)

    # ---- time ----

    def ticks(self, later: float) -> Tuple[int, int]:
        """The tick that has begun last, and the first that begins after this time."""
        now = self.loop.time() - self.begun
        return int(now / self.tick), int(-(-(now + later) // self.tick))

    def advance(self, now: int) -> int:
        """Brings the board's time up to this tick, and fires what is due."""
        while True:
            ticks = min(max(now - lib.cmwq_board_time(self.board), 0), 2 ** 32 - 1)
            status = self.make(lib.cmwq_board_advance, 0, ticks, self.at + library.NUMBER_AT)
            if status != OK or lib.cmwq_board_time(self.board) >= now:
                return status

    def delay(self, kind: int, item: Any, queue: int, cpu: int, seconds: float) -> int:
        self.enter()
        most = (2 ** 32 - 1) * self.tick
        later = arguments.seconds("seconds", seconds, 0, most)
        if later == 0:
            return self.put(kind, item, queue, cpu)
        if self.stopped:
            raise errors.Closed("the hub is shut down")
        now, due = self.ticks(later)
        if now > lib.cmwq_board_time(self.board):
            library.done(self.advance(now))
        return self.put(kind, item, queue, cpu, min(max(due - lib.cmwq_board_time(self.board), 1), 2 ** 32 - 1))

    def set_timer(self) -> None:
        if self.due == 0:
            self.due = lib.cmwq_board_due(self.board)
        if self.due != self.set_for:
            if self.timer is not None:
                self.timer.cancel()
            self.timer, self.set_for = None, self.due
            if self.due != library.NEVER and not self.stopped:
                self.timer = self.loop.call_at(self.begun + self.due * self.tick, self.fire, context=self.context)

    def fire(self) -> None:
        self.timer, self.set_for = None, library.NEVER
        full = self.advance(max(self.ticks(0)[0], self.due))
        self.due = library.NEVER if full else 0  # there is no room for more time
        self.set_timer()

    # ---- the history ----

    def write(self, text: str) -> None:
        if self.history is not None:
            try:
                self.history.write(text)
            except BaseException as why:  # told by shutdown
                report("the history of %s could not be written", self.history, why)
                let_go(why)
                self.fault, self.history = why, None

    def hand_out(self) -> None:
        """Writes what the board keeps, or drops it."""
        library.done(lib.cmwq_board_hand_out(self.board, self.lines.at))
        self.next = lib.cmwq_board_len(self.board) + self.most
        text, written = ctypes.create_string_buffer(_TEXT), ctypes.c_size_t(1)
        while self.history is not None and written.value:
            library.done(lib.cmwq_lines_write(self.lines.at, text, _TEXT, ctypes.byref(written)))
            self.write(text.raw[:written.value].decode())
        lib.cmwq_lines_forget(self.lines.at)

    def write_all(self) -> None:
        self.armed = False
        if not self.over.done():
            self.hand_out()
            self.flush()

    def flush(self) -> None:
        try:
            if self.history is not None:
                self.history.flush()
        except BaseException as why:
            self.fault, self.history = why, None

    # ---- the end ----

    def stop(self) -> None:
        """Takes nothing new, takes timers back, and thaws."""
        if self.stopped:
            return
        self.stopped = True
        if self.timer is not None:
            self.timer.cancel()
        for number in [*self.busy]:
            if self.state_of(number).pending == library.PENDING_TIMER:
                self.call(CALLER_0, library.CANCEL, number)
                self.settle(number)
        self.call(CALLER_0, library.THAW)
        self.make(lib.cmwq_board_stop)
        line, self.line = self.line, collections.deque()
        for turn in line:
            if not turn.done():
                turn.set_result(None)

    def cancel(self) -> None:
        """Cancels what runs. What is queued does nothing."""
        self.cancelled = True
        for task in [*self.tasks.values()]:
            task.cancel()

    def end_all(self) -> None:
        """There will be nothing to do any more."""
        if self.over.done():
            return
        for party in [*self.waits]:
            self.end(party)
        self.make(lib.cmwq_board_fail)
        self.unrun = tuple(self.busy.values())
        self.hand_out()
        self.write(f"end {lib.cmwq_board_len(self.board)}\n")
        self.flush()
        self.history = None
        self.busy.clear()
        self.over.set_result(None)
