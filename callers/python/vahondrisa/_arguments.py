"""What callers hand in, and in which words it is refused."""
import math
import operator
from typing import Any, NoReturn, Optional, Union

Bytes = Union[bytes, bytearray, memoryview]
NONE: Any = object()  # of an argument that was left out, where None may be handed in


class Alone:
    """What has no copy, since what it stands for in the library has none: neither `copy` nor `pickle` makes one."""

    def __reduce__(self) -> NoReturn:
        raise TypeError(f"vahondrisa.{type(self).__name__.lstrip('_')} can be neither copied nor pickled")


def bytes_of(value: object, name: str) -> bytes:
    """The bytes of an argument: bytes, or what has a buffer of them."""
    if isinstance(value, bytes):
        return value
    try:
        return memoryview(value).tobytes()  # type: ignore[arg-type]
    except TypeError:
        raise TypeError(f"{name} must be bytes or a buffer of bytes, not {type(value).__name__}") from None


def number_of(value: object, bits: int, name: str) -> int:
    """An argument that is a number of so many bits."""
    try:
        number = operator.index(value)  # type: ignore[arg-type]
    except TypeError:
        raise TypeError(f"{name} must be an int, not {type(value).__name__}") from None
    if not 0 <= number < 1 << bits:
        raise ValueError(f"{name} must be a number of {bits} bits, not {number}")
    return number


def seconds_of(value: Optional[float], name: str) -> Optional[float]:
    """An argument that is a time in seconds, or None."""
    if value is None:
        return None
    if isinstance(value, bool) or not isinstance(value, (int, float)):
        raise TypeError(f"{name} must be a number of seconds, or None, not {type(value).__name__}")
    if not value >= 0:
        raise ValueError(f"{name} must be 0 or more seconds, not {value}")
    return None if value == math.inf else value
