"""Durable hubs: the shell of one, whose journal is on the disk, and what its threads do otherwise. One file is one life
of the hub. The next life reads it, makes the calls that resume it, and puts its own file in its place.

The journal's thread alone writes and syncs, where no signal handler comes between, and one sync serves all who wait. So
a wait for the disk only looks how far that thread has come. To cut it off loses nothing and keeps nobody waiting.
"""
import collections
import contextlib
import ctypes
import fcntl
import io
import os
import queue
import threading
import time
from typing import Any, Callable, Deque, Dict, Iterator, List, Optional, Tuple

from . import _arguments as arguments
from . import _errors as errors
from . import _library as library
from ._library import lib, step
from ._report import let_go, report
from ._run import Run
from ._shell import LEAVE, OPEN, Call, Gong, Lines, Put, Shell, here, open_board, open_shells, outcome, ring, texts
from ._threads import QUIET, Worker

# The statuses after which nobody makes an entry any more.
ENDED = frozenset((library.CLOSED, library.STOPPED, library.FAILED, library.OVER))

# So many calls at most resume a history, of 255 queues and 65,535 items. No line of one is longer than this.
MOST_CALLS, MOST_LINE = 3 * 255 + 65535 + 2, 120

SECTOR = 512


class Files:
    """What is done with files. The tests have a disk in memory in its place."""

    def open(self, path: str, mode: str) -> Any:
        return io.FileIO(path, mode)

    def read(self, file: Any) -> bytes:
        return bytes(file.readall())

    def write(self, file: Any, text: bytes) -> int:
        """Returns how much was written, which may be less than all."""
        return int(file.write(text) or 0)

    def sync(self, file: Any) -> None:
        os.fdatasync(file.fileno())

    def sync_folder(self, path: str) -> None:
        folder = os.open(path, os.O_RDONLY | os.O_DIRECTORY | os.O_CLOEXEC)
        try:
            os.fsync(folder)
        finally:
            os.close(folder)

    def lock(self, file: Any) -> None:
        fcntl.flock(file, fcntl.LOCK_EX | fcntl.LOCK_NB)

    def rename(self, path: str, to: str) -> None:
        os.rename(path, to)

    def link(self, path: str, to: str) -> None:
        os.link(path, to)

    def unlink(self, path: str) -> None:
        os.unlink(path)

    def close(self, file: Any) -> None:
        file.close()


def whole_lines(text: bytes) -> bytes:
    """The part of a journal that is whole lines. The rest had not been synced when the program or the power failed:
    what stands after the last line feed, and zeros up to the end of a sector or of the file, with what stands after
    them."""
    zeros = text.find(b"\0")
    if zeros >= 0:
        end = len(text) - len(text[zeros:].lstrip(b"\0"))
        if end == len(text) or end % SECTOR == 0:
            text = text[:zeros]
    return text[:text.rfind(b"\n") + 1]


def is_ended(text: bytes) -> bool:
    """Whether the last of these whole lines says that the history has ended: then it leaves nothing."""
    return text[text.rfind(b"\n", 0, -1) + 1:].startswith(b"end ")


def long_line(text: bytes) -> int:
    """The number of the line that is longer than any may be."""
    return next((at for at, line in enumerate(text.split(b"\n"), 1) if len(line) > MOST_LINE), 1)


def resuming(text: bytes, left_out: bytes) -> Tuple[library.Shape, int, List[Tuple[int, ...]]]:
    """The shape of a history, how many queues it has, and the calls that resume it. Raises BadJournal."""
    shape, queues, count, line = library.Shape(), ctypes.c_size_t(), ctypes.c_size_t(), ctypes.c_uint64()
    calls = ctypes.create_string_buffer(MOST_CALLS * library.RESUMING.size)
    status = library.judging.cmwq_resume(text, len(text), left_out, len(left_out), ctypes.byref(shape),
                                         ctypes.byref(queues), calls, MOST_CALLS, ctypes.byref(count),
                                         ctypes.byref(line))
    if status in (library.REFUSED, library.ILLEGAL):
        wrong = line.value or long_line(text)
        raise errors.BadJournal(f"the journal is not the front of a legal history: line {wrong} is wrong", wrong)
    library.done(status)
    return shape, queues.value, list(library.RESUMING.iter_unpack(calls[:count.value * library.RESUMING.size]))


class Disk:
    """The journal of a durable hub."""

    def __init__(self, path: Any, level: Any, each: bool, again: Any, keep_old: bool) -> None:
        try:
            self.path: str = os.path.abspath(os.fsdecode(path))
        except TypeError:
            raise TypeError(f"durable={arguments.shown(path)} is not a path") from None
        if level not in ("data", "write", "none"):
            raise errors.Invalid(f"sync={arguments.shown(level)} is not 'data', 'write' or 'none'")
        self.level, self.each, self.keep_old = level, bool(each), bool(keep_old)
        self.again: Optional[Callable[[str], Any]] = again if again is None else arguments.function("again", again)
        self.files = Files()
        self.opened: List[Any] = []
        self.journal: Any = None
        # how many entries were written, and are durable; a wish for each who waits; and what has failed
        self.written = self.synced = 0
        self.wishes: Deque[None] = collections.deque()
        self.gong = Gong()
        self.failed: Optional[BaseException] = None
        self.is_closed = False

    def open(self, name: str, mode: str) -> Any:
        step(self.opened, self.files.open, (self.path + name, mode))
        return self.opened[-1][0]

    def close(self) -> None:
        """Gives up the files, and the lock with them. More than once does no harm."""
        self.is_closed = True
        for file, _ in self.opened:
            self.files.close(file)

    def lock(self) -> None:
        try:
            self.files.lock(self.open(".lock", "a"))
        except BlockingIOError:
            raise errors.InUse(f"another hub has the journal {self.path}") from None

    def read(self) -> Optional[bytes]:
        """The whole lines of the last life, or None if there was none."""
        try:
            file = self.open("", "r")
        except FileNotFoundError:
            return None
        text = self.files.read(file)
        self.files.close(file)  # it is soon without a name, and takes space as long as it is open
        whole = whole_lines(text)
        if not whole and text.rstrip(b"\0"):
            raise errors.BadJournal("line 1 is not of a journal", 1)
        return whole

    def write(self, text: bytes) -> None:
        left = memoryview(text)
        while left:
            many = self.files.write(self.journal, left)
            if many <= 0:
                raise OSError("nothing can be written")
            left = left[many:]

    def replace(self, had_one: bool) -> None:
        """Puts the journal of this life in the place of the last one."""
        if had_one and self.keep_old:
            try:
                self.files.unlink(self.path + ".1")
            except FileNotFoundError:
                pass
            self.files.link(self.path, self.path + ".1")
        self.files.rename(self.path + ".new", self.path)
        if self.level != "none":
            self.files.sync_folder(os.path.dirname(self.path))


class Start:
    """The board of a new life, before it has threads, with the entries that resume the last one."""

    def __init__(self, shape: library.Shape, queues: Any, keep: int, items: List[Any]) -> None:
        self._handle = library.Handle()
        self.board = ctypes.addressof(self._handle)
        self._keep, self._items = keep, items
        open_board(self.board, shape, queues, keep)
        self._lines = Lines(self.board)
        self.puts: List[List[Tuple[int, Put]]] = [[] for _ in items]
        self.handed = 0

    def __del__(self) -> None:
        if hasattr(self, "board"):
            lib.cmwq_board_close(self.board)

    def is_crowded(self) -> bool:
        return bool(lib.cmwq_board_len(self.board) - self.handed > self._keep)

    def text(self) -> bytes:
        """That of the entries that were made since."""
        lib.cmwq_board_hand_out(self.board, self._lines.at)
        self.handed = lib.cmwq_board_len(self.board)
        return b"".join(texts(self._lines))

    def make(self, ticket: int, number: int, item: int, kind: int, queue: int, cpu: int, *who: int) -> None:
        """Makes a call that resumes. No thread sleeps yet, so nobody is woken."""
        if kind in (library.QUEUE, library.DELAY):
            made: Any = Put(self._items[item], queue)
            notes, whose, function = self.puts[item], made, lib.cmwq_board_call
        else:
            made = Call(kind)
            notes, whose, function = made.log, None, lib.cmwq_board_call
        at = made.at
        words: Tuple[int, ...] = (self.board, at, at + library.REPLY_AT, at + library.WAKES_AT)
        library.CALL.pack_into(made.buffer, 0, ticket, number, item, kind, queue, cpu, *who, library.NONE)
        if kind == library.TICK:
            function = lib.cmwq_board_advance
            words = (self.board, 0, number, at + library.NUMBER_AT, at + library.WAKES_AT)
        elif kind == library.DESTROY:
            function = lib.cmwq_board_begin
            words = (self.board, at, at + library.PARTY_AT, at + library.REPLY_AT, at + library.WAKES_AT)
        elif kind == library.END:  # it was made with its destroy
            return
        step(notes, function, words, whose)
        while notes[-1][0] in OPEN:
            step(notes, lib.cmwq_board_end, (self.board, made.party(), at + library.WAKES_AT))
        library.done(notes[-1][0])


class DurableShell(Shell):
    """What the handles of a durable hub share. Until it is opened its board is none, and its items are declared."""

    def __init__(self, shape: library.Shape, queues: Any, keep: int, tick: float, disk: Disk) -> None:
        self.disk, self._queues = disk, queues
        self.declared: Dict[str, Any] = {}
        self._most_items = shape.items
        # whoever opens it, so that one call alone does
        self.openers: Dict[str, Any] = {}
        self.opened = Gong()
        super().__init__(shape, queues, keep, tick, None)
        self.history, self.armed, self.is_open = disk, False, False

    def open_board(self, queues: Any, keep: int) -> None:
        pass

    def close_in_child(self) -> None:
        super().close_in_child()
        self.disk.close()
        self.disk.gong.ring()
        self.opened.ring()

    # ---- the beginning ----

    def add(self, item: Any) -> int:
        name = item._name
        if name is None:
            raise errors.Invalid("an item of a durable hub has a name, as in hub.item(work, name=\"report\")")
        if self.closing:
            raise self.closed()
        if self.openers:
            raise errors.Invalid(f"name={name!r}: a durable hub takes items before it is opened, not later")
        if len(self.declared) == self._most_items:
            raise errors.NoItem("all items of the hub are in use")
        if self.declared.setdefault(name, item) is not item:
            raise errors.Invalid(f"name={name!r} is that of another item")
        return len(self.declared) - 1

    def take_over(self, start: Callable[[], None]) -> None:
        """Reads the journal of the last life, writes the beginning of this one, and starts the threads. Nothing of it
        is seen by others until it is whole. It may be called again if it fails, or is cut off, before there are
        threads; otherwise the hub ends."""
        mine = [threading.get_ident()]
        try:
            try:
                try:
                    if self._take_over(mine):
                        start()
                except BaseException:
                    self._take_back(mine)
                    raise
            except BaseException:  # as in whole()
                self._take_back(mine)
                raise
        except BaseException:
            self._take_back(mine)
            raise

    def _take_back(self, mine: List[int]) -> None:
        if self.openers.get("") is not mine:
            return
        if self.threads:
            self.keeps = self.closing = True
            self.clock.put(LEAVE)
            self.end_unopened()
        if not self.threads or self.ended:
            self.disk.close()
            open_shells.discard(self)
        if not self.threads:
            self.openers.clear()

    def _take_over(self, mine: List[int]) -> bool:
        """Returns whether threads are to be started: not if a signal handler has opened the hub."""
        if self.closing:
            raise self.closed()
        if not self.declared:
            raise errors.Invalid("no item of the durable hub was declared, as by hub.item(work, name=\"report\")")
        if self.openers.setdefault("", mine) is not mine:
            if self.is_open:
                return False
            raise errors.Invalid("the hub is being opened by another call")
        disk = self.disk
        disk.opened.clear()
        disk.is_closed = False
        open_shells.add(self)  # so that its files are closed in a child
        items = list(self.declared.values())
        for number, item in enumerate(items):
            item._number = number
            item._cpu = getattr(item, "_cpu", number % self.shape.cpus)
        shape = library.Shape(self.shape.room, 0, len(items), self.shape.cpus, self.shape.workers, self.shape.callers)
        with self._disk_faults():
            disk.lock()
            text = disk.read()
        calls = self._calls(text, shape, items) if text else []
        start = Start(shape, self._queues, self.keep, items)
        with self._disk_faults():
            disk.journal = disk.open(".new", "w")
            disk.write(library.head(shape, self._queues).encode())
            for call in calls:
                if start.is_crowded():
                    disk.write(start.text())
                start.make(*call)
            disk.write(start.text())
            if disk.level != "none":
                disk.files.sync(disk.journal)
            # a process that was forked from here has no part of it
            self.is_forked or disk.replace(text is not None)
        if self.closing:  # also in a process that was forked
            raise self.closed()
        disk.written = disk.synced = start.handed
        self.shape, self.puts, self.start = shape, start.puts, start
        self.next = start.handed + self.keep
        self.begun, self.due, self.has_timers = time.monotonic(), lib.cmwq_board_due(start.board), True
        self.board = start.board
        return True

    @contextlib.contextmanager
    def _disk_faults(self) -> Iterator[None]:
        try:
            yield
        except OSError as why:
            raise errors.DiskFailed(f"{self.disk.path}: {why}") from why
        except ValueError:  # the files were closed
            if self.is_forked:
                raise self.closed() from None
            raise

    def _calls(self, text: bytes, shape: library.Shape, items: List[Any]) -> List[Tuple[int, ...]]:
        """The calls that resume the old journal."""
        old, queues, calls = resuming(text, b"")
        if is_ended(text):
            return []
        for what, has, may in (("items", old.items, shape.items), ("queues", queues, len(self._queues)),
                               ("CPUs", old.cpus, shape.cpus)):
            if has > may:
                raise errors.OtherShape(f"the journal has {has} {what}, and the hub {may}: number {may} is missing")
        if self.disk.again is None:
            return calls
        _, _, without = resuming(text, bytes([1]) * shape.items)
        kept, rest = [], collections.deque(without)
        for call in calls:
            if rest and call[2:4] == rest[0][2:4]:  # it is not for a run that was broken off
                rest.popleft()
            elif not self.disk.again(items[call[2]]._name):
                continue
            kept.append(call)
        return kept

    def begin(self) -> None:
        self.is_open = not self.closing
        self.opened.ring()

    def wait_for_begin(self) -> None:
        self.opened.wait(lambda: self.is_open or self.closing)

    # ---- the end ----

    def begin_to_end(self, runs_all: bool) -> None:
        self.keeps = self.keeps or not self.closing and not (runs_all and self.is_open)
        self.closing = True
        self.opened.ring()

    def end_unopened(self) -> None:
        if not any(thread.ident for thread in self.threads[:1]):
            self.keeps = self.closing = self.ended = True

    def give_up(self) -> None:
        self.disk.close()

    def give_up_wait(self, call: Call) -> int:
        """A run sleeps on, so that what it has not done is done in the next life. What it calls is nobody's call."""
        self.leave(call)
        if call.who[0] != library.CALLER:
            here.broken = here.sleeps = True
        return library.STOPPED

    def sleep(self, place: int, left: Optional[float] = None) -> bool:
        super().sleep(place, left)
        return self.keeps

    # ---- the disk ----

    def fail(self, why: BaseException) -> None:
        """The disk has failed, for good: nobody makes an entry any more, and nobody waits."""
        report("the journal %s could not be written", self.disk.path, why)
        let_go(why)
        self.disk.failed = why
        self.history, self.armed = None, True
        self.full.clear()
        self.make(Call(library.TICK), lib.cmwq_board_fail)
        self.wake_all()
        self.space.ring()
        self.disk.gong.ring()

    def wait_for_disk(self) -> None:
        """Waits until all entries that there are now are durable."""
        disk = self.disk
        if disk.level == "none":
            return
        mine = lib.cmwq_board_len(self.board)
        if disk.synced < mine:
            disk.wishes.append(None)
            ring(self.journal)
            disk.gong.wait(lambda: disk.synced >= mine or disk.failed is not None)
            if disk.synced < mine:
                raise errors.NotDurable(f"the call was made, but is not durable: {disk.failed}") from disk.failed

    def settle(self) -> None:
        """Before a call of no run returns: waits for its entry, if each call does."""
        if self.disk.each and getattr(here, "owner", None) is not self:
            self.wait_for_disk()

    def sync(self) -> None:
        self.enter()
        if getattr(here, "shell", None) is self and here.worker is None:
            raise errors.Itself("the journal can't wait for itself")
        if self.ended or self.disk.failed is not None:
            raise self.closed()
        self.wait_for_disk()

    # ---- calls ----

    def closed(self) -> Any:
        if self.disk.failed is not None:
            failed = errors.DiskFailed(f"the disk of the journal has failed: {self.disk.failed}")
            failed.__cause__ = self.disk.failed
            return failed
        if self.is_forked or self.closing and not self.keeps:
            return super().closed()
        if self.keeps:
            return errors.Stopped("the hub is left")
        return errors.Closed("the hub is not open yet: `with` or resume() opens it")

    def done(self, status: int) -> None:  # type: ignore[override]
        if status in ENDED:
            raise self.closed()
        library.done(status)

    def enter(self) -> None:
        """Raises if calls are not taken: before it is open, and of no run once it is being left."""
        if not self.is_open or self.keeps:
            if getattr(here, "owner", None) is not self:
                raise self.closed()

    def state_of(self, number: int) -> library.ItemState:
        if self.disk.failed is not None:
            raise self.closed()
        return self.item_state(number)

    def told(self, reply: int) -> int:
        if reply < 0:
            self.done(-reply)
        return outcome(reply)

    def put_of_many(self, kind: int, item: Any, queue: int, cpu: int) -> int:
        self.enter()
        return self.told(self.try_put(kind, item, queue, cpu))

    def made_many(self) -> None:
        self.settle()

    def put(self, kind: int, item: Any, queue: int, cpu: int) -> int:
        made = self.put_of_many(kind, item, queue, cpu)
        self.settle()
        return made

    def delay(self, kind: int, item: Any, queue: int, cpu: int, seconds: float) -> int:
        self.enter()
        seconds = arguments.seconds("seconds", seconds, 0, (2 ** 32 - 2) * self.tick)
        if seconds == 0:
            made = self.told(self.try_put(kind, item, queue, cpu))
        else:
            made = self.told(self.before_end(self._delay, seconds, kind, item, queue, cpu))
        self.settle()
        return made

    def freeze(self) -> int:
        self.enter()
        kind = super().freeze()
        self.settle()
        return kind

    def one(self, kind: int, number: int = 0, queue: int = 0, ticks: int = 0) -> Tuple[int, int]:
        self.enter()
        made = super().one(kind, number, queue, ticks)
        self.settle()
        return made

    def wait(self, kind: int, number: int, queue: int, timeout: Any) -> int:
        self.enter()
        try:
            made = super().wait(kind, number, queue, timeout)
        except errors.TimedOut:
            self.settle()
            raise
        self.settle()
        return made


class DurableWorker(Worker):
    """A worker that starts nothing more once the hub is being left."""

    _shell: DurableShell

    def _may_begin(self) -> bool:
        self._shell.wait_for_begin()
        return not self._shell.keeps

    def _go_on(self) -> bool:
        super()._go_on()
        return self._shell.keeps

    def _end_run(self, run: Run) -> None:
        if not here.broken:
            super()._end_run(run)
            return
        # the run has no end, so that the next life has it again
        run._item = here.shell = here.wait = None
        here.broken = here.sleeps = False
        self._start.log.clear()


class DurableJournal:
    """The thread that writes and syncs the journal."""

    def __init__(self, shell: DurableShell) -> None:
        self._shell, self._last = shell, time.monotonic()

    def keep(self) -> None:
        shell = self._shell
        here.owner, here.shell, here.worker, here.sleeps = shell, shell, None, False
        try:
            while self._wait():
                pass
            if not shell.keeps:
                shell.disk.write(b"end %d\n" % lib.cmwq_board_len(shell.board))
                if shell.disk.level == "data":
                    shell.disk.files.sync(shell.disk.journal)
        except BaseException as why:
            if not shell.disk.is_closed:  # as that of a hub which has ended before this thread has begun
                shell.fail(why)
        shell.history, shell.armed = None, True
        shell.full.clear()
        shell.space.ring()
        del self._shell, shell

    def _wait(self) -> bool:
        """Waits until there is something to do, and does it. Returns whether more may come."""
        shell, disk = self._shell, self._shell.disk
        is_over, is_wanted = shell.is_over, False
        try:
            if not shell.full and not disk.wishes and not is_over:
                shell.journal.get(timeout=QUIET if shell.armed else None)
        except queue.Empty:
            shell.armed, is_wanted = False, True
        while disk.wishes:  # whoever has a wish has made its entry before
            disk.wishes.pop()
            is_wanted = True
        if is_wanted:
            shell.hand_out()
        while shell.full:
            _, lines = shell.full.popleft()
            for text in texts(lines):
                disk.write(text)
                disk.written += text.count(b"\n")
            shell.spare.append(lines)
            shell.space.ring()
        now = time.monotonic()
        is_wanted = is_wanted or is_over or now > self._last + QUIET or disk.level != "data"
        if is_wanted and disk.written > disk.synced:
            if disk.level == "data":
                disk.files.sync(disk.journal)
            self._last, disk.synced = now, disk.written
            disk.gong.ring()
        return not is_over
