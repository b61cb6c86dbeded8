"""The functions of vahondrisa.h, by ctypes."""
import ctypes
import functools
import os
import struct
import types
from ctypes import POINTER, c_char_p, c_int, c_size_t, c_uint, c_uint8, c_uint32, c_uint64, c_void_p, py_object
from typing import Any, Dict, Tuple

KEY_MAX = 255
SCAN_MAX = 256
NO_WAIT = 1
REDO_GROWS = LOG_GROWS = CACHE_FITS = (1 << 64) - 1
NOT_FOUND, EXISTS, GIVE_WAY, BUSY, INVALID, ACTIVE, FORKED, DEADLOCK, STOPPED, CLOSED = 100, 101, 102, 103, 104, 105, 106, 107, 108, 109
READ_ONLY, NOT_EMPTY, NOT_COPIED, NOT_RISING = 110, 111, 112, 113
NO_TRANSACTION, MUST_ROLL_BACK, KEY_LENGTH, ROLLING_BACK, CAPACITY, LOG_FULL, DEVICE, MEMORY = 1, 2, 3, 4, 6, 7, 8, 9
FAILED, NOT_A_STORE, POOL_SIZE, LOCKED = 10, 11, 13, 19


class Entry(ctypes.Structure):
    _fields_ = [("rid", c_uint64), ("len", c_uint8), ("key", c_uint8 * KEY_MAX)]


@functools.lru_cache(maxsize=None)
def entries(count: int) -> struct.Struct:
    """So many entries in a row, each of them its row id and its key: a string that begins with its length."""
    return struct.Struct("=" + "Q256p" * count)


class Ref(ctypes.Structure):
    _fields_ = [("key", c_char_p), ("len", c_size_t), ("rid", c_uint64)]


class Reading(ctypes.Structure):
    _fields_ = [("left", c_uint64), ("number", c_uint32), ("is_half", c_uint8)]


# What the library tells how far it is: a generator, which it was given beside this, gets the number, and answers by the next one that it yields.
Progress = ctypes.CFUNCTYPE(c_int, py_object, c_uint64)
TELL = Progress(types.GeneratorType.send)
# Whom the library asks for entries: such a generator gets the room for them, and answers how many it has put there.
Next = ctypes.CFUNCTYPE(c_int, py_object, POINTER(Ref))
HAND = Next(types.GeneratorType.send)


class Config(ctypes.Structure):
    _fields_ = [
        ("size", c_size_t), ("frames", c_uint32), ("max_pages", c_uint32), ("redo_bytes", c_uint64), ("log_bytes", c_uint64),
        ("wait_ms", c_uint64), ("progress", Progress), ("with_", py_object), ("read_only", c_uint64), ("cache_bytes", c_uint64),
    ]


class Info(ctypes.Structure):
    _fields_ = [
        (it, c_uint64)
        for it in (
            "active", "dirty_pages", "durable_end", "redo_from", "redone", "has_failed",
            "restarts", "waits", "forces", "syncs", "page_reads", "page_writes", "log_bytes",
        )
    ]


# The library's own build tests these sizes too.
assert (ctypes.sizeof(Entry), ctypes.sizeof(Config), ctypes.sizeof(Info), ctypes.sizeof(Reading), ctypes.sizeof(Ref)) == (264, 72, 104, 16, 24) and entries(1).size == 264


def _load() -> ctypes.CDLL:
    named, own = os.environ.get("VAHONDRISA_LIBRARY"), os.path.join(os.path.dirname(__file__), "libvahondrisa.so.0")
    for place in (named,) if named else (own, "libvahondrisa.so.0"):
        try:
            return ctypes.CDLL(place, use_errno=True)
        except OSError as it:
            if place == named or os.path.exists(own):  # of another machine, or for a later C library
                raise ImportError(f"the library cannot be loaded: {it}") from None
    raise ImportError("libvahondrisa.so.0 is neither in the package nor where the system looks, and VAHONDRISA_LIBRARY does not name it")


lib = _load()

_FUNCTIONS: "Dict[str, Tuple[Any, ...]]" = {
    "vah_open": (c_char_p, POINTER(Config), POINTER(c_void_p)),
    "vah_close": (c_void_p,),
    "vah_begin_within": (c_void_p, c_uint, c_uint64, POINTER(c_void_p)),
    "vah_commit": (c_void_p,),
    "vah_again": (c_void_p,),
    "vah_rollback": (c_void_p,),
    "vah_savepoint": (c_void_p, POINTER(c_uint64)),
    "vah_roll_to": (c_void_p, c_uint64),
    "vah_fetch": (c_void_p, c_char_p, c_size_t, POINTER(c_uint64)),
    "vah_insert": (c_void_p, c_char_p, c_size_t, c_uint64),
    "vah_put": (c_void_p, c_char_p, c_size_t, c_uint64, POINTER(c_int), POINTER(c_uint64)),
    "vah_delete": (c_void_p, c_char_p, c_size_t),
    "vah_seek": (c_void_p, c_char_p, c_size_t, POINTER(Entry)),
    "vah_next": (c_void_p, c_char_p, c_size_t, POINTER(Entry)),
    "vah_prev": (c_void_p, c_char_p, c_size_t, POINTER(Entry)),
    "vah_scan": (c_void_p, c_char_p, c_size_t, c_char_p, c_size_t, c_void_p, c_size_t, POINTER(c_size_t)),
    "vah_checkpoint": (c_void_p,),
    "vah_switch": (c_void_p,),
    "vah_flush": (c_void_p,),
    "vah_copy_with": (c_void_p, c_char_p, Progress, py_object),
    "vah_load": (c_char_p, Next, py_object),
    "vah_compact": (c_char_p, c_char_p),
    "vah_name_key": (c_uint, c_char_p, c_size_t, c_char_p, c_size_t, c_void_p, POINTER(c_size_t)),
    "vah_long_part": (c_void_p, c_size_t, c_char_p, c_size_t, c_uint32, POINTER(c_size_t), POINTER(c_uint64)),
    "vah_long_read": (POINTER(Reading), c_size_t, c_char_p, c_size_t, c_uint64),
    "vah_long_key": (c_char_p, c_size_t, c_void_p, POINTER(c_size_t), POINTER(c_size_t)),
    "vah_stat_with": (c_void_p, POINTER(Info), c_size_t),
    "vah_version": (),
}
_TEXTS: "Dict[str, Tuple[Any, ...]]" = {"vah_strerror": (c_int,), "vah_last_error": (), "vah_build": ()}
_RESULTS: "Tuple[Any, ...]" = ((_FUNCTIONS, c_int), (_TEXTS, c_char_p))
for _functions, _result in _RESULTS:
    for _name, _arguments in _functions.items():
        try:
            _function = getattr(lib, _name)
        except AttributeError:
            raise ImportError(f"{lib._name} is of another release than this package: it has no {_name}") from None
        _function.argtypes, _function.restype = _arguments, _result
