"""Keys with their row ids, as a dict has them."""
import ctypes
import itertools
import threading
from collections.abc import ItemsView, KeysView, MutableMapping, ValuesView
from ctypes import byref, c_int, c_size_t, c_uint64, c_void_p
from typing import Callable, Iterable, Iterator, Mapping, Optional, Tuple, TypeVar, Union, overload

from . import _library as c
from ._arguments import NONE, Alone, Bytes, bytes_of, number_of

Entry = Tuple[bytes, int]
T = TypeVar("T")
K = TypeVar("K", bound="Keys")

_fetch, _insert, _put, _delete, _scan = c.lib.vah_fetch, c.lib.vah_insert, c.lib.vah_put, c.lib.vah_delete, c.lib.vah_scan
_ENTRY_SIZE = ctypes.sizeof(c.Entry)
_RIDS = 1 << 64


class Keys(Alone, MutableMapping[bytes, int]):
    """Keys of bytes, each with a row id (`rid`), an int of 64 bits: those of a transaction, or of an index within one.

    It is a mapping, in the order of the keys' bytes. Each word of it makes calls of the transaction, which lock what they read, absent keys and the
    ends of ranges too, and may raise GiveWay, Busy, Deadlock, Failed, and ValueError once the transaction has ended. A key is bytes, or a buffer of bytes as
    a bytearray or a memoryview has it.

    >>> with store.begin() as txn:
    ...     txn[b"apple"] = 7                       # puts, or replaces
    ...     txn.insert(b"apple", 8), txn.put(b"apple", 9)
    ...     b"plum" in txn, txn.get(b"plum"), txn[b"apple"]
    ...     txn.update({b"fig": 1, b"pear": 2})
    ...     list(txn), list(txn.items())[-1], len(txn)
    ...     list(txn[b"apple":b"pear"])             # the entries from the first key on, without the second
    ...     del txn[b"apple"]
    ...     txn.pop(b"fig"), txn.pop(b"fig", None)
    (False, 7)
    (False, None, 9)
    ([b'apple', b'fig', b'pear'], (b'pear', 2), 3)
    [(b'apple', 9), (b'fig', 1)]
    (1, None)
    """

    _at: c_void_p
    _prefix = b""  # what its keys begin with in the store
    _longest = c.KEY_MAX  # bytes of a key in the store

    def _settle(self, code: int, answer: int, function: "Callable[..., int]", *arguments: object) -> int:
        """What a call has answered in the end that was not answered 0: waits, and raises what is a refusal and not an answer."""
        raise NotImplementedError

    def _ask(self, answer: int, function: "Callable[..., int]", *arguments: object) -> bool:
        """Whether a call of the transaction succeeds, where the code `answer` says that it does not."""
        code = function(self._at, *arguments)
        return not (code and self._settle(code, answer, function, *arguments))

    def _whole(self, key: Bytes) -> bytes:
        """The key of the store that stands for a key."""
        return bytes_of(key, "key")

    @overload
    def get(self, key: Bytes) -> Optional[int]: ...
    @overload
    def get(self, key: Bytes, default: Union[int, T]) -> Union[int, T]: ...
    def get(self, key: Bytes, default: object = None) -> object:
        """The row id of a key, or the default where it is not there."""
        if key.__class__ is not bytes or self._prefix:
            key = self._whole(key)
        rid = c_uint64()
        code = _fetch(self._at, key, len(key), rid)
        if code and self._settle(code, c.NOT_FOUND, _fetch, key, len(key), rid):
            return default
        return rid.value

    def insert(self, key: Bytes, rid: int) -> bool:
        """Puts a key in that is not there; False where it is there already, and then it stays as it is."""
        if key.__class__ is not bytes or self._prefix:
            key = self._whole(key)
        if rid.__class__ is not int or not 0 <= rid < _RIDS:
            rid = number_of(rid, 64, "rid")
        code = _insert(self._at, key, len(key), rid)
        return not (code and self._settle(code, c.EXISTS, _insert, key, len(key), rid))

    def put(self, key: Bytes, rid: int) -> Optional[int]:
        """Puts a key in, or gives one that is there another row id. The row id that it had, or None."""
        was_there, previous = c_int(), c_uint64()
        self._put(key, rid, was_there, previous)
        return previous.value if was_there else None

    def _put(self, key: Bytes, rid: int, was_there: Optional[c_int] = None, previous: Optional[c_uint64] = None) -> None:
        if key.__class__ is not bytes or self._prefix:
            key = self._whole(key)
        if rid.__class__ is not int or not 0 <= rid < _RIDS:
            rid = number_of(rid, 64, "rid")
        code = _put(self._at, key, len(key), rid, was_there, previous)
        if code:
            self._settle(code, 0, _put, key, len(key), rid, was_there, previous)

    def delete(self, key: Bytes) -> bool:
        """Takes a key out; False where it is not there."""
        key = self._whole(key)
        return self._ask(c.NOT_FOUND, _delete, key, len(key))

    @overload
    def pop(self, key: Bytes) -> int: ...
    @overload
    def pop(self, key: Bytes, default: Union[int, T]) -> Union[int, T]: ...
    def pop(self, key: Bytes, default: object = NONE) -> object:
        """Takes a key out, and returns the row id that it had; where it is not there the default, or KeyError without one."""
        rid = self.get(key)
        if rid is not None and self.delete(key):  # another thread of the same transaction may have taken it out
            return rid
        if default is NONE:
            raise KeyError(key)
        return default

    def first(self) -> Optional[Entry]:
        """The first entry of all, as (key, rid), or None."""
        return self._one(c.lib.vah_seek, self._prefix or b"\0")

    def last(self) -> Optional[Entry]:
        """The last entry of all, or None."""
        return next(self.range(reverse=True), None)

    def seek(self, key: Bytes) -> Optional[Entry]:
        """The first entry from a key on, or None."""
        return self._one(c.lib.vah_seek, self._whole(key))

    def next(self, key: Bytes) -> Optional[Entry]:
        """The first entry after a key, or None."""
        return self._one(c.lib.vah_next, self._whole(key))

    def prev(self, key: Bytes) -> Optional[Entry]:
        """The last entry before a key, or None."""
        return self._one(c.lib.vah_prev, self._whole(key))

    def _one(self, function: "Callable[..., int]", key: bytes) -> Optional[Entry]:
        entry = c.Entry()
        if not self._ask(c.NOT_FOUND, function, key, len(key), byref(entry)):
            return None
        rid, found = c.entries(1).unpack_from(entry)
        if not found.startswith(self._prefix) or len(found) > self._longest:
            return None
        return found[len(self._prefix) :], rid

    def range(
        self, lo: Optional[Bytes] = None, hi: Optional[Bytes] = None, *, reverse: bool = False, batch: int = c.SCAN_MAX
    ) -> "Range":
        """The entries from one key to another, both included, in order, or with `reverse` from the last one on; None and b"" are no bound.

        It reads, and so locks, `batch` entries at a time, 2 to 256, and with `reverse` one at a time.
        """
        low, high = (None if bound is None else bytes_of(bound, "key") for bound in (lo, hi))
        low = self._whole(low) if low else self._prefix or b"\0"
        high = self._whole(high) if high else self._prefix.ljust(self._longest, b"\xff")
        return Range(self, low, high, batch, reverse)

    def _slice(self, keys: slice) -> "Range":
        """The entries from a key on, without those from another one on, as slices are."""
        if keys.step is not None:
            raise ValueError("a slice of keys has no step")
        part = self.range(keys.start, keys.stop)
        if keys.stop is not None and bytes_of(keys.stop, "key"):
            part._end_before()
        return part

    def prefix(self, prefix: Bytes, *, reverse: bool = False, batch: int = c.SCAN_MAX) -> "Range":
        """The entries whose keys begin with a prefix, in order."""
        prefix = bytes_of(prefix, "prefix")
        low = self._whole(prefix) if prefix else self._prefix
        return Range(self, low or b"\0", low.ljust(self._longest, b"\xff"), batch, reverse)

    def keys(self) -> "KeysView[bytes]":
        """The keys, in order."""
        return _KeysView(self)

    def values(self) -> "ValuesView[int]":
        """The row ids, in the order of their keys."""
        return _RidsView(self)

    def items(self) -> "ItemsView[bytes, int]":
        """The entries, in order."""
        return _EntriesView(self)

    def __ior__(self: K, other: "Union[Mapping[bytes, int], Iterable[Entry]]") -> K:
        """Puts all entries of another mapping, as a dict's `|=` does."""
        self.update(other)
        return self

    def popitem(self) -> Entry:
        """Takes the last entry out, and returns it; KeyError where there is none."""
        entry = self.last()
        if entry is None:
            raise KeyError("no entry is there")
        self.delete(entry[0])
        return entry

    @overload
    def __getitem__(self, key: Bytes) -> int: ...
    @overload
    def __getitem__(self, key: slice) -> "Range": ...
    def __getitem__(self, key: Union[Bytes, slice]) -> "Union[int, Range]":
        if isinstance(key, slice):
            return self._slice(key)
        rid = self.get(key)
        if rid is None:
            raise KeyError(key)
        return rid

    def __setitem__(self, key: Bytes, rid: int) -> None:
        self._put(key, rid)

    def __delitem__(self, key: Bytes) -> None:
        if not self.delete(key):
            raise KeyError(key)

    def __contains__(self, key: object) -> bool:
        return self.get(key) is not None  # type: ignore[call-overload]

    def __iter__(self) -> Iterator[bytes]:
        return (key for key, _ in self.range())

    def __reversed__(self) -> Iterator[bytes]:
        return (key for key, _ in self.range(reverse=True))

    def __len__(self) -> int:
        """How many entries there are. It reads, and locks, all of them; `list(txn)` asks for it too, `list(txn.range())` does not."""
        return sum(1 for _ in self.range())

    def __bool__(self) -> bool:
        """True: whether there is an entry is not asked, since that would lock."""
        return True

    # it is one object, and not what it holds
    __eq__ = object.__eq__
    __hash__ = object.__hash__


class _KeysView(KeysView[bytes]):
    _mapping: Keys

    def __reversed__(self) -> Iterator[bytes]:
        return reversed(self._mapping)


class _RidsView(ValuesView[int]):
    _mapping: Keys

    def __iter__(self) -> Iterator[int]:
        return (rid for _, rid in self._mapping.range())

    def __reversed__(self) -> Iterator[int]:
        return (rid for _, rid in self._mapping.range(reverse=True))

    def __contains__(self, rid: object) -> bool:
        return any(rid == it for it in self)


class _EntriesView(ItemsView[bytes, int]):
    _mapping: Keys

    def __iter__(self) -> "Iterator[Entry]":
        return self._mapping.range()

    def __reversed__(self) -> "Iterator[Entry]":
        return self._mapping.range(reverse=True)


def _batch_of(value: object) -> int:
    """How many entries are read at a time."""
    batch = number_of(value, 64, "batch")
    if not 2 <= batch <= c.SCAN_MAX:
        raise ValueError(f"batch must be 2 to {c.SCAN_MAX}, not {batch}")
    return batch


class Range(Alone):
    """The entries of a range, each as (key, rid), as an iterator; of threads that share it each gets another entry. After an error it has ended.

    >>> with store.begin() as txn:
    ...     txn.update({b"apple": 7, b"fig": 8, b"pear": 9})
    ...     for key, rid in txn.range(b"a", b"g"):
    ...         print(key, rid)
    ...     next(txn.range(reverse=True))
    b'apple' 7
    b'fig' 8
    (b'pear', 9)
    """

    _edge: Optional[bytes] = None  # the key that was read last, which is not given again
    _is_done = False  # nothing is left after what was read
    _read: Iterator[Entry] = iter(())

    def __init__(self, keys: Keys, lo: bytes, hi: bytes, batch: int, reverse: bool) -> None:
        self._keys, self._lo, self._hi, self._is_reverse = keys, lo, hi, reverse
        self._batch = batch if batch.__class__ is int and 2 <= batch <= c.SCAN_MAX else _batch_of(batch)
        self._room: Optional[ctypes.Array[ctypes.c_char]] = None
        self._lock = threading.Lock()

    def _end_before(self) -> None:
        """Leaves out its last key: it then ends at the greatest one below."""
        last = self._hi
        self._hi = last[:-1] if last[-1] == 0 else (last[:-1] + bytes([last[-1] - 1])).ljust(self._keys._longest, b"\xff")
        self._is_done = self._hi < self._lo  # (no key is below b"\0")

    def __iter__(self) -> Iterator[Entry]:
        # not itself: a chain over what all share gives an entry more quickly than a call of `__next__`
        return itertools.chain.from_iterable(self._reads())

    def _reads(self) -> "Iterator[Iterator[Entry]]":
        while True:
            read = self._read
            yield read
            if not self._goes_on(read):
                return

    def __next__(self) -> Entry:
        while True:
            read = self._read
            for entry in read:
                return entry
            if not self._goes_on(read):
                raise StopIteration

    def _goes_on(self, read: Iterator[Entry]) -> bool:
        """Reads on, as all that was read is given; whether there is more."""
        with self._lock:
            if read is not self._read:
                return True  # another thread has read on
            if self._is_done:
                return False
            self._is_done = True  # after an exception too
            self._read = self._downward() if self._is_reverse else self._upward()
            return True

    def _upward(self) -> Iterator[Entry]:
        """The entries of one scan. It reads on from the last key."""
        if self._room is None:
            self._room, self._count = ctypes.create_string_buffer(_ENTRY_SIZE * self._batch), c_size_t()
        keys, lo, hi, count = self._keys, self._lo, self._hi, self._count
        code = _scan(keys._at, lo, len(lo), hi, len(hi), self._room, self._batch, count)
        if code:
            keys._settle(code, 0, _scan, lo, len(lo), hi, len(hi), self._room, self._batch, count)
        fields = c.entries(count.value).unpack_from(self._room)
        rids, found = fields[::2], fields[1::2]
        if found[:1] == (self._edge,):
            rids, found = rids[1:], found[1:]
        if count.value == self._batch:
            self._lo = self._edge = fields[-1]
            self._is_done = False
        return zip(self._own(found) if keys._prefix else found, rids)

    def _downward(self) -> Iterator[Entry]:
        """The entry at the upper bound where there is one, or else the one before it."""
        if self._hi < self._lo:
            return iter(())
        found, rid = c.Entry(), c_uint64()
        if self._edge is None and self._keys._ask(c.NOT_FOUND, _fetch, self._hi, len(self._hi), rid):
            key = self._hi
        elif self._keys._ask(c.NOT_FOUND, c.lib.vah_prev, self._hi, len(self._hi), byref(found)):
            rid.value, key = c.entries(1).unpack_from(found)
        else:
            return iter(())
        if key < self._lo:
            return iter(())
        self._hi = self._edge = key
        self._is_done = False
        return zip(self._own((key,)), (rid.value,))

    def _own(self, keys: "Tuple[bytes, ...]") -> "Tuple[bytes, ...]":
        """Keys as the index has them."""
        hidden = len(self._keys._prefix)
        return tuple([key[hidden:] for key in keys])

    def __repr__(self) -> str:
        return f"<vahondrisa.Range {self._lo!r} to {self._hi!r}{' in reverse' if self._is_reverse else ''}>"
