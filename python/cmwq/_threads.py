"""What the threads of a hub do: the workers, the clock and the journal."""
import queue
import threading
import time
from typing import Any, Iterable, Optional, Tuple

from . import _errors as errors
from . import _library as library
from ._handles import keep_error
from ._library import OK, lib, step
from ._report import let_go, report
from ._run import Run
from ._shell import (ABORT, END, LOOK, MADE, MOST_FULL, NOBODY, OPEN_IT, Bell, Call, Record, Shell, here, open_shells,
                     ring, texts)

# How long entries are kept at most before they are written, in seconds.
QUIET = 0.05


class Worker:
    """A thread that runs work functions.

    An exception that is kept has a traceback, whose frames lead to those below them: to the frames of this thread. So
    the frames below a work function hold nothing but this object, which has nothing once the thread has ended."""

    def __init__(self, shell: Shell, who: Tuple[int, int, int]) -> None:
        self._shell, self._who, self._place = shell, who, shell.place_of(who)
        self._start, self._finish = Call(library.TAKE, who), Call(library.FINISH, who)
        self._thrown: Optional[BaseException] = None
        self._is_over = False

    def work(self) -> None:
        here.owner, here.shell, here.worker, here.sleeps, here.wait = self._shell, None, self._who, False, None
        here.broken = False
        # An exception may also be thrown where another has just been caught, or where a loop begins anew.
        while not self._is_over:
            try:
                while not self._is_over:
                    try:
                        self._work_until_over()
                    except BaseException as why:
                        self._thrown = why
            except BaseException as why:
                self._thrown = why
        del self._shell

    def _work_until_over(self) -> None:
        """Works until the hub is over. After an exception that was thrown into this thread, but not into a work
        function, it goes on from where it was, however many come in a row."""
        if self._thrown is not None:
            self._shell.look_after(self._finish)
            report("the thread %s goes on after an exception", threading.current_thread(), self._thrown)
            self._thrown = None
        if self._start.status() == OK:
            self._go_on()
        if self._may_begin():
            self._work_on()
        self._shell.workers.discard(self._who)
        ring(self._shell.clock)
        self._is_over = True

    def _may_begin(self) -> bool:
        """Waits until the threads may begin. Returns whether something may start."""
        return True

    def _work_on(self) -> None:
        start = self._start
        words = (self._shell.board, start.at + library.WHO_AT, start.at + library.ITEM_AT,
                 start.at + library.NUMBER_AT, start.at + library.WAKES_AT)
        while True:
            start.log.clear()
            step(start.log, lib.cmwq_board_start, words, [])
            status = start.log[0][0]
            if status == library.CROWDED:
                self._shell.hand_out()
                continue
            if status in MADE:
                wakes = start.buffer[library.WAKES]
                if wakes != NOBODY or not self._shell.armed:
                    self._shell.wake(wakes)
            if status == OK:
                if self._go_on():
                    return
            elif status != library.RESTS or self._shell.sleep(self._place):
                return

    def _go_on(self) -> Any:
        """The run that has started goes on from where it is. The note of its start has the run, once that is there.
        Returns whether nothing more is to start."""
        if not self._start.log[0][1]:
            self._finish.number = int.from_bytes(self._start.buffer[library.ITEM_AT:library.ITEM_AT + 2], "little")
            self._finish.log.clear()
            self._finish.dropped.clear()
            item = self._shell.puts[self._finish.number][0][1].item
            self._start.log[0][1].append(Run(self._who, item))
            del item
            self._run_item()
        self._end_run(self._start.log[0][1][0])

    def _run_item(self) -> None:
        run: Any = self._start.log[0][1][0]
        here.shell = self._shell
        try:
            run._item._work(run)
            run._item._error = None
        except BaseException as why:
            if not (here.broken and isinstance(why, errors.Stopped)):
                keep_error(run._item, why, 1)

    def _end_run(self, run: Run) -> None:
        shell, finish = self._shell, self._finish
        while finish.status() in (None, library.NOT_NOW):
            self._leave_run(run)
            if len(shell.full) >= MOST_FULL:
                shell.keep_up()
            if shell.make(finish, lib.cmwq_board_finish, self._start.at + library.WHO_AT) == library.NOT_NOW:
                # an exception has kept it asleep
                wake = Call(library.WAKE, self._who)
                shell.make(wake, lib.cmwq_board_call, wake.at, wake.at + library.REPLY_AT)
        shell.drop(finish, finish.number)
        self._start.log.clear()

    def _leave_run(self, run: Run) -> None:
        run._item = None
        if here.wait is not None:
            self._shell.go_on(here.wait)
        if here.sleeps:
            here.sleeps = False
            self._shell.one(library.WAKE)
        here.shell = here.wait = None


class Clock:
    """The thread that fires timers. It also does the rest of calls that exceptions have cut off, and ends the hub."""

    def __init__(self, shell: Shell) -> None:
        self._shell, self._has_room, self._is_stopped, self._is_aborted = shell, True, False, False

    def keep_time(self) -> None:
        shell = self._shell
        here.owner = shell
        while not self._is_over():
            try:
                self._heed(shell.clock.get(timeout=self._left()))
            except queue.Empty:
                self._look()
            if shell.closing:
                self._stop()
        self._finish()

    def _is_over(self) -> bool:
        shell = self._shell
        return (self._is_stopped and (self._is_aborted or not shell.workers)
                and all(call.is_left or not call.is_open() and call.thread in shell.enders for call in [*shell.waits]))

    def _look(self) -> None:
        """The next timer is looked for. Meanwhile whoever sets one tells of it."""
        shell = self._shell
        shell.due = library.NEVER
        if shell.has_timers:
            shell.due = lib.cmwq_board_due(shell.board)

    def _left(self) -> Optional[float]:
        """Fires what is due. Returns how long nothing will be."""
        shell = self._shell
        while not shell.closing and self._has_room:
            left = shell.begun + shell.due * shell.tick - time.monotonic()
            if shell.due != library.NEVER and left <= 0:
                self._has_room = not shell.advance(max(shell.ticks(0)[0], shell.due))
                self._look()
            else:
                return None if shell.due == library.NEVER else min(left, threading.TIMEOUT_MAX)
        return None

    def _heed(self, told: Any) -> None:
        if isinstance(told, int):
            self._shell.due = min(self._shell.due, told)
        elif isinstance(told, Record):
            try:
                told.complete(self._shell)
            except BaseException as why:
                report("a call that was cut off can't be completed: %s", told, why)
            self._look()
        elif isinstance(told, Bell):
            told.put(None)
        elif told == LOOK:
            self._look()
        elif told == OPEN_IT:
            self._shell.begin()
        elif told is not None:  # END, LEAVE, ABORT, or the reference to a hub that is gone
            self._is_aborted |= told == ABORT or not self._shell.is_open
            self._shell.begin_to_end(told == END)

    def _stop(self) -> None:
        """Takes no more work, lets frozen queues go on, and takes back what is delayed. The waits of threads that a
        signal handler keeps until the hub has ended are left. Those of them that have not begun find it ended."""
        shell = self._shell
        for call in [*shell.waits]:
            if call.thread in shell.enders and not call.is_left and call.is_open():
                call.is_left = True
                shell.leave(call)
        if self._is_stopped or any(it.thread not in shell.enders for it in [*shell.before]):
            return
        self._is_stopped = True
        if shell.keeps:
            shell.wake_all()
            return
        delayed = [number for number, puts in enumerate(shell.puts)
                   if puts and shell.item_state(number).pending == library.PENDING_TIMER]
        for kind, number in [*((library.CANCEL, number) for number in delayed), (library.THAW, 0)]:
            try:
                shell.one(kind, number)
            except errors.Error:  # the hub has failed
                pass
        shell.make(Call(library.TICK), lib.cmwq_board_stop)

    def _finish(self) -> None:
        """Nobody makes an entry any more."""
        shell = self._shell
        shell.make(Call(library.TICK), lib.cmwq_board_fail)
        shell.wake_all()
        shell.hand_out()
        shell.is_over = True
        ring(shell.journal)
        for thread in shell.threads:
            if thread is not threading.current_thread() and thread.ident is not None:
                thread.join()
        shell.unrun = [puts[0][1].item for number, puts in enumerate(shell.puts)
                       if puts and shell.item_state(number).pending and not shell.keeps]
        for puts in shell.puts:
            puts.clear()
        shell.give_up()
        shell.ended = True
        open_shells.discard(shell)
        shell.end.ring()


class Journal:
    """The thread that writes the history."""

    def __init__(self, shell: Shell, head: str) -> None:
        self._shell, self._head = shell, head

    def keep(self) -> None:
        here.owner, here.shell, here.worker, here.sleeps = self._shell, self._shell, None, False
        try:
            self._write_all(self._shell.history)
        except BaseException as why:  # told by shutdown
            report("the history of %s could not be written", self._shell.history, why)
            let_go(why)
            self._shell.fault = why
        self._shell.history, self._shell.armed = None, True
        self._shell.full.clear()
        self._shell.space.ring()
        del self._shell

    def _write_all(self, out: Any) -> None:
        shell = self._shell
        self._write(out, [self._head])
        while self._wait():
            _, lines = shell.full.popleft()
            self._write(out, (text.decode() for text in texts(lines)))
            shell.spare.append(lines)
            shell.space.ring()
        self._write(out, [f"end {lib.cmwq_board_len(shell.board)}\n"])

    def _wait(self) -> bool:
        """Waits until there are entries. Returns False if there won't be any."""
        shell = self._shell
        while not shell.full and not shell.is_over:
            try:
                shell.journal.get(timeout=QUIET if shell.armed else None)
            except queue.Empty:
                shell.armed = False
                shell.hand_out()
        return bool(shell.full)

    def _write(self, out: Any, texts: Iterable[str]) -> None:
        """A fork waits for it, so that its process has no part of the text to write once more."""
        is_held = self._shell.lock.acquire(timeout=5)
        try:
            for text in texts:
                out.write(text)
            out.flush()
        finally:
            if is_held:
                self._shell.lock.release()
