"""What both kinds of hubs have in common: their arguments, and those calls of their handles that don't wait."""
from typing import Any, Callable, Dict, Iterable, List, Optional, TextIO, Tuple

from . import _arguments as arguments
from . import _errors as errors
from . import _library as library
from ._options import QueueOptions, shapes_of
from ._report import let_go, report


class BaseItem(arguments.Single):
    """A handle of an item of work: a work_struct with its function. It is gone once it has no handle and is neither
    pending nor running. An item without a handle that is pending runs."""

    _name: Optional[str] = None

    def __init__(self, queue: Any, work: Callable[..., Any], cpu: Optional[int], name: Optional[str] = None) -> None:
        self._shell, self._queue, self._work = queue._shell, queue, work
        if name is not None:
            self._name = name
        self._error: Optional[Tuple[BaseException, Any]] = None  # with its traceback in the work function
        self._number: int = self._shell.add(self)
        self._cpu: int = self._number % self._shell.shape.cpus if cpu is None else cpu

    def queue(self) -> bool:
        """Queues the item on its queue and CPU. Returns False if it was pending. (queue_work())"""
        return bool(self._shell.put(library.QUEUE, self, self._queue._number, self._cpu) == library.YES)

    def queue_on(self, queue: Any, cpu: int) -> bool:
        """Queues the item on any queue and CPU of the hub. Returns False if it was pending. (queue_work_on())"""
        if not isinstance(queue, BaseQueue):
            raise TypeError(f"queue={arguments.shown(queue)} is not a Queue")
        if queue._shell is not self._shell:
            raise other_hub(queue, self)
        cpu = arguments.integer("cpu", cpu, 0, self._shell.shape.cpus - 1)
        return bool(self._shell.put(library.QUEUE, self, queue._number, cpu) == library.YES)

    def _delay(self, kind: int, seconds: float) -> int:
        return int(self._shell.delay(kind, self, self._queue._number, self._cpu, seconds))

    def queue_delayed(self, seconds: float) -> bool:
        """Queues the item once this time has passed. Returns False if it was pending. (queue_delayed_work())"""
        return self._delay(library.DELAY, seconds) != library.NO

    def modify(self, seconds: float) -> bool:
        """Queues the item once this time has passed, whether or not it is pending. Returns True if it was pending.
        (mod_delayed_work())"""
        return self._delay(library.MODIFY, seconds) in (library.AGAIN, library.REBOOKED)

    def cancel(self) -> bool:
        """Cancels the item if it is pending, which is returned. It may be running. (cancel_delayed_work())"""
        return bool(self._shell.one(library.CANCEL, self._number)[0] != library.NO)

    def _told(self, reply: int, raise_errors: bool = False) -> bool:
        """What a wait returns that began with such a reply."""
        if raise_errors and self._error is not None:
            why, traceback = self._error
            try:
                raise why.with_traceback(traceback)
            finally:
                del self, why, traceback  # the exception has this frame, and is kept
        return reply not in (library.TICKET_NO, library.IDLE)

    @property
    def pending(self) -> bool:
        """Whether the item is delayed, or queued and not started. (work_pending())"""
        return bool(self._shell.state_of(self._number).pending)

    @property
    def running(self) -> bool:
        """Whether a run of the item is going on."""
        return bool(self._shell.state_of(self._number).runs)

    def __repr__(self) -> str:
        state = self._shell.item_state(self._number)
        states = ["delayed" if state.pending == library.PENDING_TIMER else "queued"] * bool(state.pending)
        states += ["running"] * bool(state.runs)
        work = getattr(self._work, "__qualname__", None) or arguments.shown(self._work)
        return (f"<cmwq.{type(self).__name__} {self._number} of {self._queue._name!r}: {work}, "
                f"{' and '.join(states) or 'idle'}>")


class BaseQueue(arguments.Single):
    """A handle of a queue."""

    def __init__(self, hub: Any, name: str, number: int) -> None:
        self._hub, self._shell, self._name, self._number = hub, hub._shell, name, number

    def _checked(self, work: Any, cpu: Any) -> Optional[int]:
        """The CPU of an item that is to be made."""
        arguments.function("work", work)
        return None if cpu is None else arguments.integer("cpu", cpu, 0, self._shell.shape.cpus - 1)

    def queue_all(self, items: Iterable[Any]) -> int:
        """Queues many items on this queue, each on its CPU. Returns how many were not pending. The items before one
        that fails are queued."""
        shell, queued = self._shell, 0
        try:
            for item in items:
                if not isinstance(item, BaseItem):
                    raise TypeError(f"items has {arguments.shown(item)}, which is not an Item")
                if item._shell is not shell:
                    raise other_hub(self, item)
                queued += shell.put_of_many(library.QUEUE, item, self._number, item._cpu) == library.YES
        except Exception:
            if queued:
                shell.made_many()
            raise
        shell.made_many()
        return queued

    def set_max_active(self, limit: int) -> int:
        """Sets how many items may be active on each CPU, 1 or more. Returns the limit that holds, which is at most 512.
        (workqueue_set_max_active())"""
        limit = arguments.integer("limit", limit, 1, 2 ** 32 - 1)
        return int(self._shell.one(library.SET_MAX, queue=self._number, ticks=limit)[1])

    def __repr__(self) -> str:
        return f"<cmwq.{type(self).__name__} {self._name!r}>"


class BaseRun(arguments.Single):
    """A run of a work function, to which it is given. Calls in a work function are calls of its run, by whatever
    handle. Once the run has ended, the calls below raise RunEnded."""

    def __init__(self, worker: Tuple[int, int, int], item: Any) -> None:
        self._worker, self._item = worker, item

    def _own(self) -> Any:
        """The item, as long as it is in this run."""
        item = self._item
        if item is None:
            raise errors.RunEnded("the run has ended")
        return item

    def _queue(self, item: Any) -> int:
        """The queue of which this is a run."""
        raise NotImplementedError

    def requeue(self) -> bool:
        """Queues the item that is running, where it runs. Returns False if it is pending."""
        item = self._own()
        return bool(item._shell.put(library.QUEUE, item, self._queue(item), self._worker[2]) == library.YES)

    def requeue_after(self, seconds: float) -> bool:
        """Queues the item that is running once this time has passed. Returns False if it is pending."""
        item = self._own()
        return bool(item._shell.delay(library.DELAY, item, self._queue(item), self._worker[2], seconds) != library.NO)

    def __repr__(self) -> str:
        name, item = type(self).__name__, self._item
        return f"<cmwq.{name}: ended>" if item is None else f"<cmwq.{name} of {item!r}>"


class BaseHub(arguments.Single):
    """Queues, by their names."""

    _shell: Any

    def _set_up(self, workers: int, cpus: int, queues: Optional[Dict[str, QueueOptions]], items: int, waits: int,
                room: int, on_error: Optional[Callable[..., Any]]) -> Tuple[library.Shape, Any, str]:
        """Checks the arguments. Returns the shape, those of the queues, and the lines that begin the history."""
        library.check_version()
        try:
            queues = {"default": QueueOptions()} if queues is None else dict(queues)
        except (TypeError, ValueError):
            raise TypeError(f"queues={arguments.shown(queues)} is not a dict") from None
        names = [arguments.text("a name in queues", name) for name in queues]
        shapes = shapes_of([(f"queues[{name!r}]", options) for name, options in queues.items()])
        shape = library.Shape(
            arguments.integer("room", room, 1, 2 ** 62), 1, arguments.integer("items", items, 1, 65535),
            arguments.integer("cpus", cpus, 1, 64), arguments.integer("workers", workers, 1, 64),
            1 + arguments.integer("waits", waits, 1, 254))
        self._on_error = on_error if on_error is None else arguments.function("on_error", on_error)
        self._names, self._errors = names, []  # type: List[str], List[BaseException]
        return shape, shapes, library.head(shape, shapes)

    @staticmethod
    def _checked(keep: int, tick: float, history: Optional[TextIO]) -> Tuple[int, float]:
        """Checks what the shell is given. Returns how many entries are kept, and the seconds of a tick."""
        keep = arguments.integer("keep", keep, 1, 2 ** 31)
        tick = arguments.seconds("tick", tick, 1e-6, 1e9)
        if history is not None:
            arguments.text_file("history", history)
        return keep, tick

    def _number_of(self, name: str) -> int:
        if arguments.text("name", name) not in self._names:
            known = ", ".join(map(repr, self._names))
            raise errors.Invalid(f"name={arguments.shown(name)} is not that of a queue: {known}")
        return self._names.index(name)

    @property
    def errors(self) -> List[BaseException]:
        """The exceptions of work functions, from the first on. Each has its traceback, without the locals. A program
        that runs for long clears the list."""
        return self._errors

    def _note(self, item: Any, why: BaseException) -> None:
        """Tells of the exception of a work function."""
        self._errors.append(why)
        report("%s has raised", item, why)
        if self._on_error is not None:
            try:
                self._on_error(item, why)
            except BaseException as other:
                other.__traceback__ = other.__traceback__ and other.__traceback__.tb_next
                report("on_error of %s has raised", self, other)
                let_go(other)
            finally:
                del self, item  # this frame is below those of the hook

    def freeze(self) -> bool:
        """Stops the freezable queues: runs go on, and nothing else of them starts. Returns False if they are stopped
        already. (freeze_workqueues_begin())"""
        return bool(self._shell.freeze() == library.FROZEN)

    def thaw(self) -> bool:
        """Lets the freezable queues go on. Returns False if they are not stopped. (thaw_workqueues())"""
        return bool(self._shell.one(library.THAW)[0] == library.THAWED)

    def _tell(self) -> None:
        """Raises what the end is to tell."""
        shell, raised = self._shell, [*self._errors]
        if shell.fault is not None:
            raise errors.HistoryError(f"the history could not be written: {shell.fault}") from shell.fault
        if shell.unrun:
            raise errors.NotRun(f"items that were queued did not run: {shell.unrun}", shell.unrun)
        if raised:
            text = f"work functions have raised: {len(raised)}, the first {arguments.shown(raised[0])}"
            raise errors.WorkError(text, raised) from raised[0]


def other_hub(queue: Any, item: Any) -> errors.Invalid:
    return errors.Invalid(f"queue={queue!r} is of another hub than {item!r}")


def keep_error(item: Any, why: BaseException, frames: int) -> None:
    """Tells of the exception of a work function, and keeps it without the locals of its frames, of which the first so
    many are not the function's."""
    for _ in range(frames):
        why.__traceback__ = why.__traceback__ and why.__traceback__.tb_next
    item._error = why, why.__traceback__
    item._queue._hub._note(item, why)
    del item
    let_go(why)
