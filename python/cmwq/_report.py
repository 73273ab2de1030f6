"""The exceptions of work functions and of threads: how they are logged, and what one that is kept holds."""
import builtins
import logging
import traceback
from typing import Any, List, Optional, Set

from . import _arguments as arguments

log = logging.getLogger("cmwq")

_GROUP: Any = getattr(builtins, "BaseExceptionGroup", ())


def report(text: str, about: Any, why: BaseException) -> None:
    """Logs an exception. A record that is kept has only the text, and a handler of the log that raises ends no thread
    of a hub."""
    try:
        log.error(text, arguments.shown(about), exc_info=why)
    except BaseException:
        try:
            traceback.print_exc()
        except BaseException:  # there is nobody who could be told
            pass


def let_go(why: BaseException) -> None:
    """Clears the locals of the frames that have ended, in the tracebacks of an exception and of those that it has come
    from. The tracebacks still tell where it was."""
    left: List[Optional[BaseException]] = [why]
    known: Set[int] = set()
    while left:
        one = left.pop()
        if one is not None and id(one) not in known:
            known.add(id(one))
            for frame, _ in traceback.walk_tb(one.__traceback__):
                try:
                    frame.clear()
                    frame.f_locals  # before Python 3.13 it keeps what was seen of it, and is brought up to date so
                except RuntimeError:  # it has not ended
                    pass
            left += [one.__cause__, one.__context__]
            if isinstance(one, _GROUP):
                left += one.exceptions
