"""What arguments may be. One of another type raises TypeError, and one outside its limits Invalid, which is a
ValueError: with its name, its value and what it may be."""
import io
import math
import operator
import time
from typing import Any, Optional

from . import _errors as errors


def shown(value: Any) -> str:
    """How a value is shown in a message: in one that is not too long, and whatever its own `repr` does."""
    try:
        text = repr(value)
    except Exception:  # also that of an int which has too many digits
        text = object.__repr__(value)
    return text if len(text) <= 120 else f"{text[:80]}...{text[-20:]}"


def integer(name: str, value: Any, least: int, most: int) -> int:
    """The argument as an int."""
    try:
        number = operator.index(value)
    except TypeError:
        raise TypeError(f"{name}={shown(value)} is not an int") from None
    if not least <= number <= most:
        raise errors.Invalid(f"{name}={shown(value)} is not from {least} to {most}")
    return number


def seconds(name: str, value: Any, least: float, most: float) -> float:
    """The argument as a float."""
    if not hasattr(type(value), "__float__"):
        raise TypeError(f"{name}={shown(value)} is not a number")
    try:
        number = float(value)
    except OverflowError:  # an int that is too large
        number = math.inf if value > 0 else -math.inf
    except ValueError:  # a Decimal that signals
        number = math.nan
    if not least <= number <= most:
        raise errors.Invalid(f"{name}={shown(value)} is not from {least:.15g} to {most:.15g}")
    return number


def deadline(timeout: Any) -> Optional[float]:
    """When this time will have passed, by time.monotonic(), or None if it never will."""
    if timeout is None:
        return None
    left = seconds("timeout", timeout, -math.inf, math.inf)
    return None if left == math.inf else time.monotonic() + left


def function(name: str, value: Any) -> Any:
    """The argument, which can be called."""
    if not callable(value):
        raise TypeError(f"{name}={shown(value)} can't be called")
    return value


def text(name: str, value: Any) -> str:
    """The argument, which is a str."""
    if not isinstance(value, str):
        raise TypeError(f"{name}={shown(value)} is not a str")
    return value


def text_file(name: str, value: Any) -> Any:
    """The argument, which is a text file that can be written."""
    is_text = all(callable(getattr(value, it, None)) for it in ("write", "flush"))
    if not is_text or isinstance(value, (io.RawIOBase, io.BufferedIOBase)):
        raise TypeError(f"{name}={shown(value)} is not a text file")
    if isinstance(value, io.IOBase) and (value.closed or not value.writable()):
        raise errors.Invalid(f"{name}={shown(value)} is not open for writing")
    return value


class Single:
    """What can't be copied: a copy would go on without knowing when its original has gone."""

    def __reduce__(self) -> Any:
        raise TypeError(f"{self!r} can't be copied or pickled")
