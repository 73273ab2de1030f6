"""The Book: a workqueue runtime of one thread."""
import ctypes
from typing import Any, NamedTuple, Sequence, Tuple, Union

from . import _arguments as arguments
from . import _errors as errors
from . import _library as library
from ._library import lib
from ._options import QueueOptions, shapes_of


class Shape(NamedTuple):
    """The counts of a `Book`: `room` entries at most, up to 2^62, of which `keep` are kept, up to 2^32 - 1; `items`, 1
    to 65,535; `cpus`, 1 to 64; `workers` in each of a CPU's two pools, 1 to 64; and `callers`, 1 to 255."""
    room: int
    keep: int
    items: int
    cpus: int
    workers: int
    callers: int


_LEAST, _MOST = Shape(0, 0, 1, 1, 1, 1), Shape(2 ** 62, 2 ** 32 - 1, 65535, 64, 64, 255)


class Refused(errors.Error):
    """The book doesn't take the call: its text says why. Nothing has changed."""


_STATUSES = ("done", "refused", "closed", "full", "no memory", "short", "crowded")


def _done(status: int) -> None:
    if status:
        raise Refused(_STATUSES[status])


class Book(arguments.Single):
    """A workqueue runtime of one thread, for simulators. It has no threads, locks or clock. Each call makes one entry
    of a history, and returns a reply that is proved to be the right one. `with` closes it."""

    def __init__(self, shape: Shape, queues: Sequence[QueueOptions]) -> None:
        if not isinstance(shape, Shape):
            raise TypeError(f"shape={arguments.shown(shape)} is not a Shape")
        counts = [arguments.integer(f"shape.{name}", value, least, most)
                  for name, value, least, most in zip(Shape._fields, shape, _LEAST, _MOST)]
        try:
            named = [(f"queues[{number}]", options) for number, options in enumerate(queues)]
        except TypeError:
            raise TypeError(f"queues={arguments.shown(queues)} is not a sequence of QueueOptions") from None
        shapes = shapes_of(named)
        self._handle = library.Handle()
        self._at = ctypes.addressof(self._handle)
        _done(lib.cmwq_open(self._at, ctypes.byref(library.Shape(*counts)), shapes, len(shapes)))

    def __enter__(self) -> "Book":
        return self

    def __exit__(self, *_: Any) -> None:
        self.close()

    def __del__(self) -> None:
        if hasattr(self, "_at"):
            self.close()

    def close(self) -> None:
        """Closes the book. More than once does no harm."""
        lib.cmwq_close(self._at)

    def step(self, call: str) -> str:
        """Makes the call of a line, such as "c0 queue 0 0 0", and returns the line of its entry."""
        out, written = ctypes.create_string_buffer(library.LINE), ctypes.c_size_t()
        text = arguments.text("call", call).encode(errors="surrogatepass")
        _done(lib.cmwq_step_line(self._at, text, len(text), out, library.LINE, ctypes.byref(written)))
        return out.raw[:written.value].decode()

    def ready(self, ticket: int) -> bool:
        """Whether the ticket waits for nothing any more."""
        return lib.cmwq_ready(self._at, arguments.integer("ticket", ticket, 0, 2 ** 64 - 1))

    def forget(self) -> None:
        """Forgets all entries that are kept, so that as many more can be kept."""
        lib.cmwq_forget(self._at)

    def __len__(self) -> int:
        return lib.cmwq_len(self._at)

    def __repr__(self) -> str:
        return f"<cmwq.Book of {len(self)} entries{'' if self._handle.live else ', closed'}>"


def check(history: Union[str, bytes]) -> Tuple[bool, str]:
    """Judges a whole history, of any format, as `cmwq check` does. Returns whether it is legal, and the line that says
    so or which entry is wrong. Raises NotAHistory."""
    if not isinstance(history, (str, bytes, bytearray, memoryview)):
        raise TypeError(f"history={arguments.shown(history)} is neither a str nor bytes")
    text = history.encode(errors="surrogatepass") if isinstance(history, str) else bytes(history)
    out, written = ctypes.create_string_buffer(library.LINE), ctypes.c_size_t()
    status = library.judging.cmwq_check(text, len(text), out, library.LINE, ctypes.byref(written))
    if status == library.NO_MEMORY:
        raise errors.NoMemory("out of memory")
    if status not in (library.OK, library.ILLEGAL):
        raise errors.NotAHistory("the text is not a history, or was cut off")
    return status == library.OK, out.raw[:written.value].decode().strip()
