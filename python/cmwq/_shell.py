"""The shell: what stands between the threads of a program and a board of the library. It makes calls of the board, and
wakes those whom the board has named. What is to be done is decided by the board.

Its lock is that of the interpreter, which a call of the library keeps. So each call is one step, and between two steps
anything may come: other threads, finalizers, and signal handlers, which may make calls of their own, and may raise.

- What a call reads and writes is its own (`Call`).
- A step that changes something notes that by itself (`library.step`). What an exception has cut off is handed to the
  clock's thread, which no handler interrupts. It does what the notes say is left (`Record.complete`).
- Whoever sleeps waits for a token in a bell. A token that comes too early stays there.
"""
import collections
import ctypes
import queue
import threading
import time
import weakref
from typing import Any, Callable, Deque, FrozenSet, Iterator, List, Optional, Set, TextIO, Tuple

from . import _arguments as arguments
from . import _errors as errors
from . import _library as library
from ._library import NONE, OK, lib, step

# How many full buffers of entries may wait to be written before calls wait for the journal.
MOST_FULL = 4

# How long a call sleeps at most until it looks again, in seconds. A signal that comes just before the main thread
# sleeps doesn't wake it.
AWAKE = 1.0

# The statuses at which the library has written whom to wake, and those at which a wait goes on.
MADE: FrozenSet[int] = frozenset((OK, library.WAITS, library.RESTS, library.OVER, library.LOOK_AGAIN))
OPEN: FrozenSet[int] = frozenset((library.WAITS, library.LOOK_AGAIN))

# The replies to calls that have made an item pending, to those of them before which it was pending already, and to
# those after which it is pending no more.
PENDING: FrozenSet[int] = frozenset((library.YES, library.BOOKED, library.AGAIN, library.REBOOKED))
MOVED: FrozenSet[int] = frozenset((library.AGAIN, library.REBOOKED))
TAKEN_BACK: FrozenSet[int] = frozenset((library.CANCELLED, library.UNBOOKED, library.TICKET_CANCELLED,
                                        library.TICKET_UNBOOKED))

# What the clock is told, beside ticks and records: to look again, to end the hub, and to end it without its threads;
# and of a durable hub to let its threads begin, and to end it and keep what has not started.
LOOK, END, ABORT, OPEN_IT, LEAVE = "look", "end", "abort", "open", "leave"

CALLER_0 = (library.CALLER, 0, 0)

# What names nobody.
NOBODY = bytes(8 * [library.NOBODY, 0, 0] + 8 * [library.NOBODY] + 3 * [0])

_pack, _unpack = library.CALL.pack_into, library.REPLY.unpack_from

Bell = queue.SimpleQueue

# Of this thread: the shell whose thread it is, the shell and the worker of the run that it is in, whether that run
# sleeps, its last wait, and whether it was broken off.
here = threading.local()

# Those whose threads have not ended.
open_shells: "Set[Shell]" = set()


def ring(bell: "Bell[Any]") -> None:
    """Whoever sleeps by the bell looks again. One token is enough."""
    if bell.empty():
        bell.put(None)


def outcome(reply: int) -> int:
    """Raises the exception of a reply that says that nothing was done, or of a status, which is given as minus it."""
    if reply < 0:
        library.done(-reply)
    return library.told(reply) if reply in library.REFUSALS else reply


def rest(bell: "Bell[Any]", seconds: Optional[float]) -> bool:
    """Sleeps until there is a token, which is taken, or the time has passed. Returns whether there was one."""
    try:
        bell.get(timeout=seconds)
        return True
    except queue.Empty:
        return False


class Gong:
    """What threads sleep by until a condition holds. Unlike a threading.Condition it has no lock that an exception
    could leave behind."""

    def __init__(self) -> None:
        self._bells: "Deque[Bell[Any]]" = collections.deque()

    def ring(self) -> None:
        """All look again."""
        for _ in range(len(self._bells)):
            self._bells.popleft().put(None)

    def wait(self, is_over: Callable[[], bool]) -> None:
        while not is_over():
            bell: "Bell[Any]" = Bell()
            self._bells.append(bell)
            while not is_over() and not rest(bell, AWAKE):
                pass


class Record:
    """Something that is done in several steps."""

    __slots__ = ()

    def complete(self, shell: "Shell") -> None:
        """Does what is left of it, after an exception has cut it off. A second time it does nothing."""
        raise NotImplementedError


class Taking(Record):
    """An item takes a number."""

    def __init__(self, item: Any) -> None:
        self.item = item
        self.log: List[Tuple[Any, Any]] = []

    def value(self) -> int:
        taken = self.log[0][0]
        return taken.value if isinstance(taken, Number) else taken

    def complete(self, shell: "Shell") -> None:
        number = shell.numbers[self.value()] if self.log else None
        if self.log and (number is None or number() is not self.item):
            shell.free.appendleft(self.value())
        self.log.clear()


class Before(Record):
    """Something that the end of the hub takes back, so it comes before: a delay or a freeze."""

    def __init__(self) -> None:
        self.thread = threading.get_ident()

    def complete(self, shell: "Shell") -> None:
        shell.before.discard(self)


class Put(Record):
    """A call that may make an item pending. Its step is noted in the list of the item, which has the order of all such
    calls, and holds the item as long as it is pending or running."""

    __slots__ = ("buffer", "at", "item", "queue", "dropped")

    def __init__(self, item: Any, queue: int) -> None:
        self.buffer = buffer = library.Buffer()
        self.at = ctypes.addressof(buffer)
        self.item, self.queue = item, queue
        self.dropped: List[Any] = []

    def reply(self) -> Tuple[int, int, int, int]:
        """Its number, other, item and kind."""
        return _unpack(self.buffer, library.REPLY_AT)

    def complete(self, shell: "Shell") -> None:
        shell.settle_put(self, shell.puts[self.item._number], self.reply()[3])
        shell.look_after(self)


class Call(Record):
    """Any other call, with the statuses of its steps."""

    def __init__(self, kind: int, who: Tuple[int, int, int] = CALLER_0, number: int = 0, queue: int = 0,
                 ticks: int = 0) -> None:
        self.buffer = buffer = library.Buffer()
        self.at = ctypes.addressof(buffer)
        self.kind, self.who, self.number = kind, who, number
        _pack(buffer, 0, 0, ticks, number, kind, queue, 0, *who, NONE)
        self.log: List[Tuple[int, Any]] = []
        self.dropped: List[Any] = []
        self.thread, self.is_left, self.sleeps = 0, False, False

    def reply(self) -> Tuple[int, int, int, int]:
        """Its number, other, item and kind."""
        return _unpack(self.buffer, library.REPLY_AT)

    def status(self) -> Optional[int]:
        """That of its last step. One that was crowded was none."""
        return next((status for status, _ in reversed(self.log) if status != library.CROWDED), None)

    def is_open(self) -> bool:
        """Whether it waits by a lent caller."""
        return self.status() in OPEN

    def party(self) -> int:
        return self.buffer[library.PARTY_AT][0]

    def complete(self, shell: "Shell") -> None:
        if self.reply()[3] in TAKEN_BACK:
            shell.drop(self, self.number)
        if self.is_open() and self.who[0] == library.CALLER:
            shell.leave(self)
        if not self.is_open():
            shell.waits.discard(self)
        shell.look_after(self)


class Lines:
    """A buffer that takes entries."""

    def __init__(self, board: int) -> None:
        self._handle = library.Handle()
        self.at = ctypes.addressof(self._handle)
        library.done(lib.cmwq_lines_open(self.at, board))

    def __del__(self) -> None:
        if hasattr(self, "at"):
            lib.cmwq_lines_close(self.at)


def open_board(board: int, shape: library.Shape, queues: Any, keep: int) -> None:
    """Opens a board. It has space for the entries of a call, and for the ends of all waits that were left."""
    shape.keep = min(keep + 2 * (shape.items + 2) + 256, 2 ** 32 - 1)
    library.done(lib.cmwq_board_open(board, ctypes.byref(shape), queues, len(queues), shape.callers - 1))


def texts(lines: Lines) -> Iterator[bytes]:
    """The text of the entries that were handed out."""
    text, written = ctypes.create_string_buffer(1 << 16), ctypes.c_size_t()
    while True:
        library.done(lib.cmwq_lines_write(lines.at, text, len(text), ctypes.byref(written)))
        if not written.value:
            return
        yield text.raw[:written.value]


class Number(weakref.ref):  # type: ignore[type-arg]
    """What has the number of an item. Once the item is gone, one step gives it back."""

    __slots__ = ("value",)

    def __new__(cls, item: Any, back: Callable[[Any], None], value: int) -> "Number":
        made = super().__new__(cls, item, back)
        made.value = value
        return made

    def __init__(self, item: Any, back: Callable[[Any], None], value: int) -> None:
        super().__init__(item, back)


class Shell:
    """What handles share."""

    # what only that of a durable hub may change: whether its threads have begun, and whether it is being left
    is_open, keeps = True, False

    done = staticmethod(library.done)

    def __init__(self, shape: library.Shape, queues: Any, keep: int, tick: float, history: Optional[TextIO]) -> None:
        self.shape, self.tick, self.begun = shape, tick, time.monotonic()
        self._handle = library.Handle()
        self.board = ctypes.addressof(self._handle)
        self.open_board(queues, keep)
        self.first_caller = 2 * shape.cpus * shape.workers
        self.bells: "List[Bell[Any]]" = [Bell() for _ in range(self.first_caller + shape.callers)]
        # of each item: the status and the record of each call that has made it pending, as often as it is pending or
        # running; and of others that go on
        self.puts: List[List[Tuple[int, Put]]] = [[] for _ in range(shape.items)]
        # the calls that may have named somebody who is not woken yet
        self.owed: Set[Record] = set()
        self.numbers: List[Optional[Number]] = [None] * shape.items
        self.free: Deque[Any] = collections.deque(range(shape.items))
        # the clock
        self.clock: "Bell[Any]" = Bell()
        self.rescue = self.clock.put
        self.due, self.has_timers = library.NEVER, False
        # the journal
        self.journal: "Bell[Any]" = Bell()
        self.history: Any = history
        self.armed, self.is_over = history is None, False
        self.keep, self.next = keep, keep
        self.spare: List[Lines] = []
        self.full: Deque[Tuple[int, Lines]] = collections.deque()
        self.space = Gong()
        self.fault: Optional[BaseException] = None
        self.lock = threading.Lock()
        # the end
        self.closing, self.ended, self.is_forked, self.end = False, False, False, Gong()
        self.owner: Any = None
        self.workers: Set[Tuple[int, int, int]] = set()
        self.waits: Set[Call] = set()
        self.before: Set[Before] = set()
        self.enders: Set[int] = set()
        self.threads: List[threading.Thread] = []
        self.unrun: List[Any] = []

    def open_board(self, queues: Any, keep: int) -> None:
        open_board(self.board, self.shape, queues, keep)

    def __del__(self) -> None:
        if hasattr(self, "board"):
            lib.cmwq_board_close(self.board)

    def begin(self) -> None:
        """Lets the threads begin."""

    def begin_to_end(self, runs_all: bool) -> None:
        """Takes no more work from outside. It is said whether what is queued runs."""
        self.closing = True

    def end_unopened(self) -> None:
        """Ends it if it has no threads yet."""

    def give_up(self) -> None:
        """Gives up what it has beside its threads, once they have ended."""

    def close_in_child(self) -> None:
        """In a process that was forked, whose copy of the board nobody uses."""
        lib.cmwq_board_close(self.board)
        self.is_forked = self.closing = self.ended = True
        self.history = self.fault = None
        for some in (self.workers, self.waits, self.threads, *self.puts):
            some.clear()
        self.wake_all()
        self.space.ring()
        self.end.ring()

    # ---- steps ----

    def make(self, call: Call, function: Callable[..., int], *more: int) -> int:
        """Makes a step of a call, and wakes those whom it names. Returns its status."""
        if lib.cmwq_board_len(self.board) >= self.next:
            self.hand_out()
        log, words = call.log, (self.board, *more, call.at + library.WAKES_AT)
        self.owed.add(call)
        step(log, function, words)
        while log[-1][0] == library.CROWDED:
            self.hand_out()
            step(log, function, words)
        status = log[-1][0]
        if status in MADE:
            wakes = call.buffer[library.WAKES]
            if wakes != NOBODY or not self.armed:
                self.wake(wakes)
        self.owed.discard(call)
        return status

    def hand_out(self) -> None:
        """Hands out what the board keeps: to the journal, or to nobody."""
        try:
            lines = self.spare.pop()
        except IndexError:
            lines = Lines(self.board)
        if self.history is None:
            lib.cmwq_board_hand_out(self.board, lines.at)
            lib.cmwq_lines_forget(lines.at)
            self.spare.append(lines)
        else:
            step(self.full, lib.cmwq_board_hand_out, (self.board, lines.at), lines)
            ring(self.journal)
        self.next = lib.cmwq_board_len(self.board) + self.keep

    def wake(self, wakes: bytes) -> None:
        """Wakes those who are named, and the journal if it doesn't know of entries."""
        if wakes[0] != library.NOBODY:
            for at in range(0, 24, 3):
                if wakes[at] == library.NOBODY:
                    break
                ring(self.bells[self.place_of(wakes[at:at + 3])])
        if wakes[24] != library.NOBODY:
            for caller in wakes[24:32]:
                if caller == library.NOBODY:
                    break
                ring(self.bells[self.first_caller + caller])
        if wakes[32] or wakes[33]:
            self.wake_all()
        if wakes[34]:  # a drain has ended: there may be timers that it has held back
            self.clock.put(LOOK)
        if not self.armed:
            self.armed = True
            ring(self.journal)

    def wake_all(self) -> None:
        for bell in self.bells:
            ring(bell)

    def look_after(self, record: Record) -> None:
        """Everybody looks again, since somebody may have been forgotten."""
        self.wake_all()
        self.owed.discard(record)
        ring(self.journal)
        self.has_timers = True

    def place_of(self, who: Any) -> int:
        kind, index, cpu = who
        return (2 * cpu + (kind == library.HIGH_WORKER)) * self.shape.workers + index

    def sleep(self, place: int, left: Optional[float] = None) -> Any:
        """Sleeps as this party, which the board has told to sleep, until it is named or the time has passed. Returns
        whether a worker is to start nothing more."""
        rest(self.bells[place], left)

    def item_state(self, number: int) -> library.ItemState:
        state = library.ItemState()
        lib.cmwq_board_item(self.board, number, ctypes.byref(state))
        return state

    state_of = item_state

    def whole(self, doing: Callable[..., Any], record: Record, *more: Any) -> Any:
        """Does something as a whole. If an exception cuts it off, the clock does the rest. A handler may raise where an
        except clause begins, and that of the next signal where the one around it does. So three in a row are heeded."""
        try:
            try:
                try:
                    return doing(record, *more)
                except BaseException:
                    self.rescue(record)
                    raise
            except BaseException:
                self.rescue(record)
                raise
        except BaseException:
            self.rescue(record)
            raise

    def who(self, waits: bool) -> Tuple[int, int, int]:
        """Whose calls this thread makes: those of the run that it is in, and else those of caller 0. A run that sleeps
        makes no calls but waits."""
        if getattr(here, "shell", None) is self:
            if here.worker is None:
                raise errors.Itself("what writes the history can't make calls of its hub")
            if waits or not here.sleeps:
                return here.worker
        return CALLER_0

    def keep_up(self) -> None:
        """Waits until the journal has kept up."""
        self.space.wait(lambda: len(self.full) < MOST_FULL or self.history is None)

    def be_heard(self) -> None:
        """Waits until the clock has done what it was told before."""
        bell: "Bell[Any]" = Bell()
        self.clock.put(bell)
        try:
            bell.get(timeout=1)
        except queue.Empty:  # it has ended
            pass

    def closed(self) -> errors.Closed:
        return errors.Closed(library.FORKED if self.is_forked else "the hub is shut down")

    # ---- items ----

    def add(self, item: Any) -> int:
        """Returns a number for an item, which has it as long as it is there."""
        if self.ended or (self.closing and self.who(False) == CALLER_0):
            raise self.closed()
        taking = Taking(item)
        self.whole(self._add, taking)
        if not taking.log:
            raise errors.NoItem("all items of the hub are in use")
        return taking.value()

    def _add(self, taking: Taking) -> None:
        try:
            step(taking.log, self.free.popleft, ())
        except IndexError:
            return
        value = taking.value()
        self.numbers[value] = Number(taking.item, self.free.appendleft, value)

    def put(self, kind: int, item: Any, queue: int, cpu: int) -> int:
        """A call that may make an item pending. Returns the kind of its reply."""
        return outcome(self.try_put(kind, item, queue, cpu))

    # one of many calls, after which made_many() is called
    put_of_many = put

    def made_many(self) -> None:
        pass

    def try_put(self, kind: int, item: Any, queue: int, cpu: int, ticks: int = 0) -> int:
        """As put(), but returns minus the status if that is not OK, and a reply that says that nothing was done."""
        put, number = Put(item, queue), item._number
        _pack(put.buffer, 0, 0, ticks, number, kind, queue, cpu, *self.who(False), NONE)
        if len(self.full) >= MOST_FULL:
            self.keep_up()
        try:
            try:
                return self._put(put, self.puts[number])
            except BaseException:
                self.rescue(put)
                raise
        except BaseException:  # as in whole()
            self.rescue(put)
            raise

    def _put(self, put: Put, puts: List[Tuple[int, Put]]) -> int:
        # no wait ends because of it, so that it needs no more space than the board says
        at = put.at
        words = (self.board, at, at + library.REPLY_AT, at + library.WAKES_AT)
        self.owed.add(put)
        step(puts, lib.cmwq_board_call, words, put)
        number, _, _, kind = put.reply()
        while kind == NONE:
            status = next((status for status, whose in reversed([*puts]) if whose is put), library.STOPPED)
            self.settle_put(put, puts, kind)
            if status != library.CROWDED:
                self.owed.discard(put)
                return -status
            self.hand_out()
            step(puts, lib.cmwq_board_call, words, put)
            number, _, _, kind = put.reply()
        wakes = put.buffer[library.WAKES]
        if wakes != NOBODY or not self.armed:
            self.wake(wakes)
        self.owed.discard(put)
        if kind != library.YES:
            self.settle_put(put, puts, kind)
            if kind in (library.BOOKED, library.REBOOKED):
                self.has_timers = True
                if number < self.due:
                    self.clock.put(number)
        return kind

    def settle_put(self, put: Put, puts: List[Tuple[int, Put]], kind: int) -> None:
        """Keeps in the list of an item what has made it pending."""
        if kind in MOVED:
            self.drop(put, put.item._number)
        elif kind not in PENDING:
            for entry in [*puts]:
                if entry[1] is put:
                    try:
                        puts.remove(entry)
                    except ValueError:  # the end of the hub has come between
                        pass

    def drop(self, record: Any, number: int) -> None:
        """An item is pending or running once less, and held once less. What the record itself has put goes last, since
        it is where the item is pending now."""
        puts = self.puts[number]
        while not record.dropped:
            dropped = None
            for entry in [*puts]:
                if entry[1].reply()[3] in PENDING:
                    dropped = entry
                    if entry[1] is not record:
                        break
            if dropped is None:
                return
            try:
                step(record.dropped, puts.remove, (dropped,))
            except ValueError:  # another thread has dropped this one
                pass

    def before_end(self, doing: Callable[..., Any], *words: Any) -> Any:
        """Does something that the end of the hub takes back. It doesn't raise because the library refuses it: what
        raises is completed by the clock."""
        done = self.whole(self._before_end, Before(), doing, *words)
        if done is None:
            raise self.closed()
        return done

    def _before_end(self, before: Before, doing: Callable[..., Any], *words: Any) -> Any:
        self.before.add(before)
        try:
            return None if self.closing and not self.keeps else doing(*words)
        finally:
            self.before.discard(before)
            if self.closing:
                ring(self.clock)

    def delay(self, kind: int, item: Any, queue: int, cpu: int, seconds: float) -> int:
        """As put(), once this time has passed."""
        seconds = arguments.seconds("seconds", seconds, 0, (2 ** 32 - 2) * self.tick)
        if seconds == 0:
            return self.put(kind, item, queue, cpu)
        if self.closing:
            raise self.closed()
        return outcome(self.before_end(self._delay, seconds, kind, item, queue, cpu))

    def _delay(self, seconds: float, *words: Any) -> int:
        now, due = self.ticks(seconds)
        if now > lib.cmwq_board_time(self.board):
            status = self.advance(now)
            if status:
                return -status
        return self.try_put(*words, min(max(due - lib.cmwq_board_time(self.board), 1), 2 ** 32 - 1))

    def ticks(self, later: float) -> Tuple[int, int]:
        """The tick that has begun last, and the first that begins after this time."""
        now = time.monotonic() - self.begun
        return int(now / self.tick), int(-(-(now + later) // self.tick))

    def advance(self, now: int) -> int:
        """Brings the board's time up to this tick, and fires what is due. A call of the board goes on for 2^32 - 1
        ticks at most. Returns the status."""
        while True:
            ticks = min(max(now - lib.cmwq_board_time(self.board), 0), 2 ** 32 - 1)
            call = Call(library.TICK)
            status = self.whole(self.make, call, lib.cmwq_board_advance, 0, ticks, call.at + library.NUMBER_AT)
            if status or lib.cmwq_board_time(self.board) >= now:
                return status

    def freeze(self) -> int:
        """Returns the kind of the reply."""
        return self._reply(*self.before_end(self._try_one, library.FREEZE))[0]

    # ---- other calls ----

    def one(self, kind: int, number: int = 0, queue: int = 0, ticks: int = 0) -> Tuple[int, int]:
        """A call of one entry, which makes no item pending. Returns the kind and the number of its reply."""
        return self._reply(*self._try_one(kind, number, queue, ticks))

    def _reply(self, status: int, call: Call) -> Tuple[int, int]:
        self.done(status)
        reply = call.reply()
        return library.told(reply[3]), reply[0]

    def _try_one(self, kind: int, number: int = 0, queue: int = 0, ticks: int = 0) -> Tuple[int, Call]:
        call = Call(kind, self.who(False), number, queue, ticks)
        if len(self.full) >= MOST_FULL:
            self.keep_up()
        return self.whole(self._one, call), call

    def _one(self, call: Call) -> int:
        status = self.make(call, lib.cmwq_board_call, call.at, call.at + library.REPLY_AT)
        if call.reply()[3] in TAKEN_BACK:
            self.drop(call, call.number)
        return status

    def wait(self, kind: int, number: int, queue: int, timeout: Any) -> int:
        """A call that waits. Returns the kind of the reply with which it began."""
        call = Call(kind, self.who(True), number, queue)
        call.thread = threading.get_ident()
        deadline = arguments.deadline(timeout)
        in_run = call.who is not CALLER_0
        if not in_run and getattr(here, "owner", None) is self:  # in a finalizer, for one
            raise errors.Itself("a thread of the hub, whose help a wait may need, waits in its runs only")
        if len(self.full) >= MOST_FULL:
            self.keep_up()
        try:
            status = self.whole(self._wait, call, deadline)
            if status == library.NO_CALLER and not in_run:
                # waits that exceptions have cut off may have callers until the clock leaves them
                self.be_heard()
                status = self.whole(self._wait, call, deadline)
            self.done(status)
        except BaseException:
            if in_run:
                self.go_on(call)
            raise
        return library.told(call.reply()[3])

    def _wait(self, call: Call, deadline: Optional[float]) -> int:
        self.waits.add(call)
        if call.who is not CALLER_0:
            here.wait = call
        status = self.make(call, lib.cmwq_board_begin, call.at, call.at + library.PARTY_AT, call.at + library.REPLY_AT)
        if call.reply()[3] in TAKEN_BACK:
            self.drop(call, call.number)
        if status in OPEN:
            status = self._end(call, deadline)
        self.waits.discard(call)
        if self.closing:
            ring(self.clock)
        return status

    def _end(self, call: Call, deadline: Optional[float]) -> int:
        """Waits until the wait has ended, or leaves it then. Returns the status."""
        party = call.party()
        while not call.is_left:
            status = self.make(call, lib.cmwq_board_end, party)
            if status not in OPEN:
                break
            if self.keeps and status == library.WAITS:
                status = self.give_up_wait(call)
                break
            left = None if deadline is None else deadline - time.monotonic()
            if left is not None and left <= 0:
                (self.leave if call.who is CALLER_0 else self.go_on)(call)
                status = library.TIMED_OUT
                break
            if status == library.WAITS:
                if self.owed:  # this may be a signal handler, or a finalizer, that has come into such a call
                    self.wake_all()
                self.sleep(self.first_caller + party, AWAKE if left is None else min(left, AWAKE))
            else:
                time.sleep(0)
        return library.OVER if call.is_left else status

    def give_up_wait(self, call: Call) -> int:
        """Leaves a wait because the hub is being left. Returns the status."""
        raise NotImplementedError

    def leave(self, call: Call) -> None:
        """Nobody waits by this call any more."""
        self.make(call, lib.cmwq_board_leave, call.party())

    def go_on(self, call: Call) -> None:
        """Leaves this wait of a run, if it has not ended. Unless it slept before, the run is awake again."""
        if call.is_open():
            call.sleeps = not here.sleeps
            self.leave(call)
        if call.sleeps:
            wake = Call(library.WAKE, call.who)
            self.make(wake, lib.cmwq_board_call, wake.at, wake.at + library.REPLY_AT)
            call.sleeps = False
        self.waits.discard(call)
