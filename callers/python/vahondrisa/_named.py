"""Named indexes and long values of a store."""
from collections.abc import MutableMapping
from typing import TYPE_CHECKING, Callable, Iterable, Iterator, Mapping, Optional, Tuple, TypeVar, Union, overload

from . import _library as c
from ._arguments import NONE, Alone, Bytes, bytes_of
from ._keys import Entry, Keys
from ._layout import FIRST, LAST, PARTS, PARTS_END, key_in, key_of, parts_of, value_of

if TYPE_CHECKING:
    from ._store import Store
    from ._transaction import Transaction

T = TypeVar("T")


class _Named(Alone):
    def __init__(self, store: "Store", name: str, prefix: bytes) -> None:
        self._store, self._name, self._prefix = store, name, prefix

    @property
    def name(self) -> str:
        """Its name."""
        return self._name

    def _check(self, txn: "Transaction") -> None:
        if txn._store is not self._store:
            raise ValueError(f"txn must be of the store that {self._name!r} is of")

    def __repr__(self) -> str:
        return f"<vahondrisa.{type(self).__name__} {self._name!r} of {self._store!r}>"


class Index(_Named):
    """A named index of a store: keys of its own, each with a row id, beside those of all other indexes. A transaction has the entries of all, so that a
    change of several indexes is there whole or not at all.

    Its keys have 1 to 253 bytes, fewer by the length of its name. They are keys of the store too, as are some that stand for the name itself: a transaction's
    own `items`, `len` and `clear` meet them, and `clear` takes all indexes away.

    >>> by_id, by_city = store.index("by_id"), store.index("by_city")
    >>> with store.begin() as txn:
    ...     by_id.within(txn)[b"4711"] = 7
    ...     by_city.within(txn)[b"oslo"] = 7
    ...     list(by_id.within(txn).items())
    [(b'4711', 7)]
    >>> store.indexes()
    ['by_city', 'by_id']
    """

    def within(self, txn: "Transaction") -> Keys:
        """Its entries in a transaction."""
        self._check(txn)
        return _IndexKeys(txn, self._prefix)


class _IndexKeys(Keys):
    __doc__ = Keys.__doc__
    _longest = c.KEY_MAX - 1  # below the guard

    def __init__(self, txn: "Transaction", prefix: bytes) -> None:
        self._txn, self._at, self._prefix = txn, txn._at, prefix

    def _settle(self, code: int, answer: int, function: "Callable[..., int]", *arguments: object) -> int:
        return self._txn._settle(code, answer, function, *arguments)

    def _whole(self, key: Bytes) -> bytes:
        key = bytes_of(key, "key")
        if not 1 <= len(key) <= self._longest - len(self._prefix):
            raise ValueError(f"a key of this index has 1 to {self._longest - len(self._prefix)} bytes, not {len(key)}")
        return self._prefix + key

    def __repr__(self) -> str:
        return f"<vahondrisa.Keys of {self._prefix[1:]!r} in {self._txn!r}>"


class Blob(_Named):
    """A named set of long values: keys of its own, each with bytes of any length. A transaction has them beside all other entries, so that a value is
    there whole or not at all, and with it what else was changed.

    A value lies in the store as keys of up to 254 bytes that carry its parts, so it takes some five quarters of its length, more with long keys, and
    each part is read, and locked, as an entry: it is for values of some kilobytes. A key has 1 to 217 bytes, fewer by the length of the name, and by one
    for each byte 0 in it.

    >>> pages = store.blob("pages")
    >>> with store.begin() as txn:
    ...     pages.within(txn)[b"about"] = b"a page " * 1000
    ...     len(pages.within(txn)[b"about"])
    7000
    """

    def within(self, txn: "Transaction") -> "Values":
        """Its values in a transaction."""
        self._check(txn)
        return Values(txn, self._name)


class Values(Alone, MutableMapping[bytes, bytes]):
    """The long values of a `Blob` in a transaction, by their keys: a mapping of bytes to bytes, in the order of the keys' bytes.

    A change that is refused half way, or that Ctrl-C ends, is taken back; where another Ctrl-C comes at that very moment, `commit` rolls all of the transaction
    back, and raises Error with the code 2.

    >>> blob = store.blob("texts")
    >>> with store.begin() as txn:
    ...     texts = blob.within(txn)
    ...     texts[b"greeting"] = b"hello " * 100
    ...     texts.put(b"greeting", b"good-bye"), texts.size(b"greeting"), b"thanks" in texts
    ...     list(texts.items())
    ...     del texts[b"greeting"]
    (True, 8, False)
    [(b'greeting', b'good-bye')]
    """

    def __init__(self, txn: "Transaction", name: str) -> None:
        self._txn, self._name = txn, name.encode()

    @overload
    def get(self, key: Bytes) -> Optional[bytes]: ...
    @overload
    def get(self, key: Bytes, default: Union[bytes, T]) -> Union[bytes, T]: ...
    def get(self, key: Bytes, default: object = None) -> object:
        """The value of a key, or the default where there is none."""
        front, end = self._place(key)
        value = value_of(front, self._txn.range(front, end))
        return default if value is None else value

    @overload
    def pop(self, key: Bytes) -> bytes: ...
    @overload
    def pop(self, key: Bytes, default: Union[bytes, T]) -> Union[bytes, T]: ...
    def pop(self, key: Bytes, default: object = NONE) -> object:
        """Takes a value out, and returns it; where there is none the default, or KeyError without one."""
        with self._txn._long:
            value = self.get(key)
            if value is not None and self.delete(key):
                return value
        if default is NONE:
            raise KeyError(key)
        return default

    def size(self, key: Bytes) -> Optional[int]:
        """How many bytes the value of a key has, or None. It reads the first part alone."""
        front, end = self._place(key)
        found = self._txn.seek(front)
        return found[1] if found and found[0] <= end else None

    def put(self, key: Bytes, value: Bytes) -> bool:
        """Puts a value in, in place of the one that was there; whether there was one."""
        (front, end), value = self._place(key), bytes_of(value, "value")
        parts = parts_of(front, value)
        if parts is None:
            raise ValueError(f"a value of {len(value)} bytes has too many parts")
        new = dict(parts)
        with self._txn._long:
            old = dict(self._txn.range(front, end))
            self._change([it for it in old.items() if it not in new.items()], [it for it in new.items() if it not in old.items()])
        return bool(old)

    def delete(self, key: Bytes) -> bool:
        """Takes a value out; False where there is none."""
        with self._txn._long:
            old = list(self._txn.range(*self._place(key)))
            self._change(old, ())
        return bool(old)

    def _change(self, old: "Iterable[Entry]", new: "Iterable[Entry]") -> None:
        """Takes entries out and puts others in: all, or none where an exception comes, a refusal or that of a signal's handler."""
        txn, was_half, changes = self._txn, self._txn._is_half, self._txn._changes()
        try:
            txn._is_half = True
            for at, _ in old:
                txn.delete(at)
            for at, rid in new:
                txn.insert(at, rid)
            txn._is_half = was_half
        except BaseException:
            txn._is_half = True
            if not txn._gives_way:
                c.lib.vah_roll_to(txn._at, changes)  # what this is refused the next call is told, or makes
            txn._is_half = was_half
            raise

    def _place(self, key: Bytes) -> "Tuple[bytes, bytes]":
        """Where the parts of a value begin, which is what all of them begin with, and where they end."""
        key = bytes_of(key, "key")
        front, end = key_of(PARTS, self._name, key), key_of(PARTS_END, self._name, key)
        if front is None or end is None:
            raise ValueError(f"a key of a long value has 1 to {217 - len(self._name)} bytes here, fewer by one for each byte 0 in it, not {len(key)}")
        return front, end

    def __getitem__(self, key: Bytes) -> bytes:
        value = self.get(key)
        if value is None:
            raise KeyError(key)
        return value

    def __setitem__(self, key: Bytes, value: Bytes) -> None:
        self.put(key, value)

    def __delitem__(self, key: Bytes) -> None:
        if not self.delete(key):
            raise KeyError(key)

    def __ior__(self, other: "Union[Mapping[bytes, bytes], Iterable[Tuple[bytes, bytes]]]") -> "Values":
        self.update(other)
        return self

    def __contains__(self, key: object) -> bool:
        return self.size(key) is not None  # type: ignore[arg-type]

    def __iter__(self) -> Iterator[bytes]:
        """The keys that have a value, in order. It reads one part of each."""
        at, last = key_of(FIRST, self._name), key_of(LAST, self._name) or b""
        while at is not None:
            found = self._txn.seek(at)
            if found is None or found[0] > last:
                return
            key = key_in(found[0])
            yield key
            at = key_of(PARTS_END, self._name, key)

    def __len__(self) -> int:
        return sum(1 for _ in self)

    def __bool__(self) -> bool:
        """True: whether there is a value is not asked, since that would lock."""
        return True

    # it is one object, and not what it holds
    __eq__ = object.__eq__
    __hash__ = object.__hash__

    def __repr__(self) -> str:
        return f"<vahondrisa.Values of {self._name!r} in {self._txn!r}>"
