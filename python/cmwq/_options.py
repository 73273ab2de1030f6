"""The options of queues."""
from typing import Any, NamedTuple, Sequence, Tuple

from . import _arguments as arguments
from . import _library as library


class QueueOptions(NamedTuple):
    """The options of a queue, as of alloc_workqueue()."""
    max_active: int = 256
    high_priority: bool = False
    cpu_intensive: bool = False
    freezable: bool = False


def max_active(limit: int, *, high_priority: bool = False, cpu_intensive: bool = False,
               freezable: bool = False) -> QueueOptions:
    """Options of a queue of which at most so many items are active on each CPU, 1 to 512.

    high_priority: the items run in the pools of high priority (WQ_HIGHPRI). cpu_intensive: the runs don't hold up other
    runs of their pool (WQ_CPU_INTENSIVE). freezable: `Hub.freeze` stops the queue (WQ_FREEZABLE)."""
    return QueueOptions(limit, high_priority, cpu_intensive, freezable)


def shapes_of(queues: Sequence[Tuple[str, Any]]) -> Any:
    """The options of these queues for the library, each with the name of the argument that has it."""
    arguments.integer("len(queues)", len(queues), 1, 255)
    shapes = (library.QueueShape * len(queues))()
    for shape, (name, options) in zip(shapes, queues):
        if not isinstance(options, QueueOptions):
            raise TypeError(f"{name}={arguments.shown(options)} is not a QueueOptions, as max_active(8) returns one")
        shape.max_active = arguments.integer(f"{name}.max_active", options.max_active, 1, 512)
        shape.high, shape.intensive, shape.freezable = (bool(it) for it in options[1:])
    return shapes
