"""What a work function is given."""
from typing import Any

from . import _arguments as arguments
from . import _errors as errors
from . import _library as library
from ._handles import BaseRun
from ._shell import PENDING, Shell, here


class Run(BaseRun):
    __doc__ = BaseRun.__doc__

    def _queue(self, item: Any) -> int:
        """The queue of which this is a run: that of the last call that has made the item pending. While it runs it
        can't be queued on another one."""
        puts = [*item._shell.puts[item._number]]
        while len(puts) > 1 and puts[-1][1].reply()[3] not in PENDING:
            puts.pop()
        return puts[-1][1].queue if puts else item._queue._number

    def block(self) -> "Block":
        """`with run.block():` is to be around what blocks. The run sleeps meanwhile, so another item of its pool can
        run."""
        self._own()
        return Block(self)


class Block(arguments.Single):
    """What `Run.block` returns."""

    def __init__(self, run: Run) -> None:
        self._run, self._slept = run, False

    def __enter__(self) -> None:
        shell: Shell = self._run._own()._shell
        if shell.keeps and here.broken:  # it sleeps from its wait on
            return
        if shell.who(False) != self._run._worker:
            raise errors.Invalid("only the work function itself blocks, and it must be awake")
        try:
            self._slept = shell.one(library.SLEEP)[0] == library.SLEPT
        except errors.Full:  # there is no room for it: the run stays awake
            self._slept = False
        here.sleeps = self._slept

    def __exit__(self, *_: Any) -> None:
        slept, self._slept = self._slept, False
        item = self._run._item  # a run that has ended is awake
        if slept and item is not None:
            here.sleeps = False
            item._shell.one(library.WAKE)

    def __repr__(self) -> str:
        return f"<cmwq.Block of {self._run!r}>"
