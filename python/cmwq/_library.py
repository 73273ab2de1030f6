"""The calls of cmwq.h, by ctypes."""
import ctypes
import os
import struct
import sys
import threading
from itertools import starmap
from types import SimpleNamespace
from typing import Any, Callable, Tuple

from . import _errors as errors

VERSION = "1.0.0"

# the numbers of cmwq.h
OK, REFUSED, CLOSED, FULL, NO_MEMORY, SHORT, CROWDED, ILLEGAL, STOPPED, FAILED, NOT_NOW = range(11)
ITSELF, DEADLOCK, NO_CALLER, WAITS, RESTS, OVER, LOOK_AGAIN = range(11, 18)
(QUEUE, DELAY, MODIFY, CANCEL, TICK, FIRE, FLUSH, DRAIN, FLUSH_ITEM, FLUSH_DELAYED, CANCEL_SYNC, END, TAKE, FINISH,
 SLEEP, WAKE, RETIRE, SET_MAX, FREEZE, THAW, DESTROY) = range(21)
(YES, BOOKED, AGAIN, REBOOKED, NO, FOREIGN, DRAINING, MISUSE, CANCELLED, UNBOOKED, NOW, FIRED, NOTHING, TICKET,
 TICKET_QUEUED, TICKET_CANCELLED, TICKET_UNBOOKED, TICKET_NO, IDLE, CROWD, DONE, WAITING, STARTED, STARTED_ENLIST, HELD,
 FINISHED, SLEPT, WOKE, RETIRED, KEPT, WIDTH, FROZEN, THAWED, GONE, TIMERS) = range(35)
CALLER, WORKER, HIGH_WORKER = range(3)
PENDING_TIMER, NOBODY, LINE, NEVER = 1, 255, 256, 2 ** 64 - 1
LEFT_ENDED = 1

# The kind of the reply to a call that was not made.
NONE = 255

# A status of the shell: the time limit has passed.
TIMED_OUT = 32

FAULTS = {CLOSED: errors.Closed, FULL: errors.Full, NO_MEMORY: errors.NoMemory, STOPPED: errors.Closed,
          FAILED: errors.Closed, OVER: errors.Closed, ITSELF: errors.Itself, DEADLOCK: errors.Deadlock,
          NO_CALLER: errors.TooManyWaits, TIMED_OUT: errors.TimedOut}

# What is said in place of what the exception says. A board is closed only in a process that was forked.
FORKED = "the hub is closed in this process, which was forked from the one that opened it"
ASLEEP = "a run that sleeps makes no calls but waits"

REFUSALS = {FOREIGN: errors.Foreign, DRAINING: errors.Draining, GONE: errors.Gone, TIMERS: errors.Timers,
            CROWD: errors.TooManyWaits, MISUSE: errors.Invalid}


class Handle(ctypes.Structure):
    _fields_ = [("at", ctypes.c_void_p), ("live", ctypes.c_bool)]


class Shape(ctypes.Structure):
    """The counts of a `Book`: `room` entries at most of which `keep` are kept, `items`, `cpus`, `workers` in each of a
    CPU's two pools, and `callers`."""
    _fields_ = [("room", ctypes.c_uint64), ("keep", ctypes.c_uint32), ("items", ctypes.c_uint16),
                ("cpus", ctypes.c_uint8), ("workers", ctypes.c_uint8), ("callers", ctypes.c_uint8)]


class QueueShape(ctypes.Structure):
    _fields_ = [("max_active", ctypes.c_uint16), ("high", ctypes.c_uint8), ("intensive", ctypes.c_uint8),
                ("freezable", ctypes.c_uint8)]


class ItemState(ctypes.Structure):
    _fields_ = [("number", ctypes.c_uint64), ("run", ctypes.c_uint64), ("pending", ctypes.c_uint8),
                ("queue", ctypes.c_uint8), ("cpu", ctypes.c_uint8), ("runs", ctypes.c_uint8),
                ("worker", ctypes.c_uint8 * 3)]


# A call, and NONE as the kind of the reply after it: ticket, number, item, kind, queue, cpu, and who: kind, index, cpu.
CALL = struct.Struct("<QIHBBBBBB4x18xB")

# The same call in the list of those that resume a history.
RESUMING = struct.Struct("<QIHBBBBBB4x")

# number, other, item, kind
REPLY = struct.Struct("<QQHB")

# What a call of a board reads and writes, and where in it that is. WHO is a part of the call.
Buffer = ctypes.c_char * 104
WHO_AT, REPLY_AT, WAKES_AT, ITEM_AT, NUMBER_AT, PARTY_AT = 17, 24, 48, 84, 88, 96
WAKES = slice(WAKES_AT, WAKES_AT + 35)


def _path() -> str:
    here = os.path.dirname(os.path.abspath(__file__))
    repository = os.path.dirname(os.path.dirname(here))
    given = os.environ.get("CMWQ_LIB")
    folders = [given] if given else [here, f"{repository}/dist/x86_64-linux-gnu", f"{repository}/build/c"]
    return next((it for it in (f"{folder}/libcmwq.so" for folder in folders) if os.path.exists(it)),
                f"{folders[0]}/libcmwq.so")


# Its calls are short and never wait, so they keep the interpreter's lock. To let it go would take longer.
lib = ctypes.PyDLL(_path())

# Those of a long history let it go.
judging = ctypes.CDLL(_path())

_AT, _U8, _U16, _U32, _U64, _SIZE = (ctypes.c_void_p, ctypes.c_uint8, ctypes.c_uint16, ctypes.c_uint32, ctypes.c_uint64,
                                     ctypes.c_size_t)

_CALLS = {
    "version": (_U32,),
    "open": (_U32, _AT, _AT, _AT, _SIZE), "close": (None, _AT), "ready": (ctypes.c_bool, _AT, _U64),
    "step_line": (_U32, _AT, ctypes.c_char_p, _SIZE, _AT, _SIZE, _AT), "len": (_U64, _AT), "forget": (_U32, _AT),
    "head": (_U32, _AT, _AT, _SIZE, _AT, _SIZE, _AT),
    "board_open": (_U32, _AT, _AT, _AT, _SIZE, _U8), "board_close": (None, _AT),
    "board_call": (_U32, _AT, _AT, _AT, _AT), "board_start": (_U32, _AT, _AT, _AT, _AT, _AT),
    "board_finish": (_U32, _AT, _AT, _AT), "board_begin": (_U32, _AT, _AT, _AT, _AT, _AT),
    "board_end": (_U32, _AT, _U8, _AT), "board_leave": (_U32, _AT, _U8, _AT),
    "board_advance": (_U32, _AT, _U8, _U32, _AT, _AT), "board_time": (_U64, _AT), "board_due": (_U64, _AT),
    "board_item": (_U32, _AT, _U16, _AT), "board_stop": (_U32, _AT, _AT), "board_fail": (_U32, _AT, _AT),
    "board_len": (_U64, _AT), "board_news": (_U32, _AT), "board_hand_out": (_U32, _AT, _AT),
    "lines_open": (_U32, _AT, _AT), "lines_close": (None, _AT), "lines_write": (_U32, _AT, _AT, _SIZE, _AT),
    "lines_forget": (_U32, _AT),
}

for _name, (_result, *_arguments) in _CALLS.items():
    if not hasattr(lib, f"cmwq_{_name}"):
        raise ImportError(f"{_path()} has no cmwq_{_name}(): it has another version than this package, {VERSION}")
    _call = getattr(lib, f"cmwq_{_name}")
    _call.restype, _call.argtypes = _result, _arguments
judging.cmwq_check.restype = judging.cmwq_resume.restype = ctypes.c_uint32
judging.cmwq_check.argtypes = [ctypes.c_char_p, _SIZE, _AT, _SIZE, _AT]
judging.cmwq_resume.argtypes = [ctypes.c_char_p, _SIZE, ctypes.c_char_p, _SIZE, _AT, _AT, _AT, _SIZE, _AT, _AT]


def step(notes: Any, call: Callable[..., Any], arguments: Tuple[Any, ...], whose: Any = None) -> None:
    """Makes a call of C, and notes its result at the end of a list or deque, with whose it is. Both are one step: no
    other thread and no signal handler comes between."""
    notes += zip(starmap(call, (arguments,)), (whose,))


if not getattr(sys, "_is_gil_enabled", lambda: True)():
    # An interpreter without a lock. One of our own is held in each call of the library, and no longer.
    _lock, _step, _calls = threading.RLock(), step, lib

    def _locked(call: Callable[..., Any]) -> Callable[..., Any]:
        def made(*arguments: Any) -> Any:
            with _lock:
                return call(*arguments)
        made.call = call  # type: ignore[attr-defined]
        return made

    def step(notes: Any, call: Callable[..., Any], arguments: Tuple[Any, ...], whose: Any = None) -> None:
        with _lock:
            _step(notes, getattr(call, "call", call), arguments, whose)

    lib = SimpleNamespace(**{f"cmwq_{name}": _locked(getattr(_calls, f"cmwq_{name}")) for name in _CALLS})


def check_version() -> None:
    """Raises unless the library is that of this package."""
    major, minor, patch = map(int, VERSION.split("."))
    number = lib.cmwq_version()
    if number != major * 1000000 + minor * 1000 + patch:
        found = f"{number // 1000000}.{number // 1000 % 1000}.{number % 1000}"
        raise errors.VersionMismatch(f"libcmwq.so has version {found}, and this package needs {VERSION}")


def head(shape: Shape, queues: Any) -> str:
    """The lines that begin a history."""
    text, written = ctypes.create_string_buffer(64 * (2 + len(queues))), ctypes.c_size_t()
    done(lib.cmwq_head(ctypes.byref(shape), queues, len(queues), text, len(text), ctypes.byref(written)))
    return text.raw[:written.value].decode()


def done(status: int) -> None:
    """Raises the exception of a status."""
    if status:
        kind = FAULTS.get(status, errors.Invalid)
        raise kind(FORKED if status == CLOSED else _text(kind))


def told(kind: int) -> int:
    """Raises the exception of a reply that says that nothing was done."""
    if kind in REFUSALS:
        raise REFUSALS[kind](ASLEEP if kind == MISUSE else _text(REFUSALS[kind]))
    return kind


def _text(kind: Any) -> str:
    return " ".join((kind.__doc__ or "").split()).split(". ")[0].rstrip(".")
