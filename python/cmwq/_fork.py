"""What a fork does. The new process has none of the threads of the hubs, so they are closed there."""
import io
import os
import time
from typing import Any, List, Tuple

from ._library import step
from ._shell import Shell, here, open_shells

# How long a fork waits at most for those that write histories, in seconds.
MOST = 1.0

# Of a fork: the hubs for whose writers it has waited, and whether their locks are held now.
Held = List[Tuple[bool, Shell]]


def _before() -> None:
    """Between two writes a file keeps nothing back, so that the two processes don't both write it."""
    held: Held = []
    here.forks = [*getattr(here, "forks", ()), held]
    end = time.monotonic() + MOST
    for shell in list(open_shells):
        step(held, shell.lock.acquire, (True, max(end - time.monotonic(), 0)), shell)


def _after() -> Held:
    held: Held = here.forks.pop() if getattr(here, "forks", None) else []
    for is_held, shell in held:
        if is_held and shell.lock.locked():
            shell.lock.release()
    return held


def _after_in_child() -> None:
    between = {shell for is_held, shell in _after() if is_held}
    for shell in list(open_shells):
        if shell.history is not None and shell not in between:
            forget_text(shell.history)
        shell.close_in_child()
    open_shells.clear()


def forget_text(file: Any) -> None:
    """Makes a text file forget what it keeps back, which the other process writes, and which thread writes it, for
    which it would wait in vain. For that it is made anew over the same descriptor."""
    text = getattr(file, "file", file)  # that of a tempfile.NamedTemporaryFile
    if not isinstance(text, io.TextIOWrapper):
        return
    try:
        buffer: Any = text.buffer
        for kind in (io.BufferedWriter, io.BufferedRandom):
            if isinstance(buffer, kind):
                kind.__init__(buffer, buffer.raw)
        io.TextIOWrapper.__init__(text, buffer, text.encoding, text.errors, None, text.line_buffering,
                                  text.write_through)
    except ValueError:  # it is closed
        pass


os.register_at_fork(before=_before, after_in_parent=_after, after_in_child=_after_in_child)
