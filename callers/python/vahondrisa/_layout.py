"""Where named indexes and long values lie among the keys of a store: the library says it, and docs/GUIDE.md has it in words."""
import ctypes
from ctypes import byref, c_size_t, c_uint64
from typing import Iterable, List, Optional, Tuple

from . import _library as c

# A key of a name, or an end of a range of them: of the name in the catalogue; the greatest that begins with the name's prefix, which is put into the store when an
# index is made, and is no entry of it: an insert or a scan at the end of an index locks it, and not the first key of its neighbour; where the keys of the name begin, and end; where the
# parts of a long value begin, and end. The catalogue is the prefix of no name.
ROW, GUARD, FIRST, LAST, PARTS, PARTS_END = 0, 1, 3, 4, 5, 6


def key_of(which: int, name: bytes, key: bytes = b"") -> Optional[bytes]:
    """A key; None where it does not fit."""
    to, size = ctypes.create_string_buffer(c.KEY_MAX), c_size_t()
    code = c.lib.vah_name_key(which, name, len(name), key, len(key), to, byref(size))
    return None if code else to.raw[: size.value]


def parts_of(front: bytes, value: bytes) -> "Optional[List[Tuple[bytes, int]]]":
    """The entries of a long value, after what all of its parts begin with; None where there would be too many."""
    key, size, rid = ctypes.create_string_buffer(front, c.KEY_MAX), c_size_t(), c_uint64()
    parts: "List[Tuple[bytes, int]]" = []
    while True:
        code = c.lib.vah_long_part(key, len(front), value, len(value), len(parts), byref(size), byref(rid))
        if code:
            return parts if code == c.NOT_FOUND else None
        parts.append((key.raw[: size.value], rid.value))


def value_of(front: bytes, parts: "Iterable[Tuple[bytes, int]]") -> Optional[bytes]:
    """The value whose parts these are, or None where there is none; ValueError where half of one is there."""
    reading, value = c.Reading(), []
    for at, rid in parts:
        if c.lib.vah_long_read(byref(reading), len(front), at, len(at), rid):
            raise ValueError("the parts of a long value do not agree")
        value.append(at[len(front) + 3 :])
    if reading.left:
        raise ValueError("the parts of a long value do not agree")
    return b"".join(value) if reading.number else None


def key_in(part: bytes) -> bytes:
    """The key of the long value whose part this is."""
    key, size, front = ctypes.create_string_buffer(c.KEY_MAX), c_size_t(), c_size_t()
    if c.lib.vah_long_key(part, len(part), key, byref(size), byref(front)):
        raise ValueError("the parts of a long value do not agree")
    return key.raw[: size.value]
