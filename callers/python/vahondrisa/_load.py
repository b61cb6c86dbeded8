"""A store that is made of entries whose keys rise."""
import itertools
import os
from typing import Any, Generator, Iterable, Iterator, List, Mapping, Optional, Tuple

from . import _library as c
from ._arguments import Bytes, bytes_of, number_of
from ._catalogue import BLOB, INDEX, _key
from ._errors import refuse
from ._layout import FIRST, GUARD, PARTS, ROW, key_of, parts_of
from ._store import Path, _name_of

Items = Iterable[Tuple[Bytes, int]]


def load(
    path: Path, items: Items = (), *, indexes: "Optional[Mapping[str, Items]]" = None, blobs: "Optional[Mapping[str, Iterable[Tuple[Bytes, Bytes]]]]" = None
) -> None:
    """Makes a store in a folder that is empty or is to be made, of entries whose keys rise, without a log: each page is written once, and full. It has just
    these entries, and is on the disk; where this raises there is no store. Open it then.

    Named indexes and sets of long values are made in the same way, each of entries whose keys rise; beside them keys of `items` begin with a byte of 32 or more.

    Raises ValueError where a key is not above the one before it, or has not 1 to 255 bytes, NotCopied where the folder is not empty, Failed, and what `items` raises.

    >>> vahondrisa.load(folder + "/loaded", ((b"%06d" % i, i) for i in range(1000)))
    >>> with vahondrisa.open(folder + "/loaded") as loaded:
    ...     loaded[b"000999"]
    999
    >>> vahondrisa.load(folder + "/named", indexes={"by_city": [(b"lima", 1), (b"oslo", 2)]}, blobs={"notes": [(b"a", b"a note " * 1000)]})
    >>> with vahondrisa.open(folder + "/named") as named:
    ...     with named.begin() as txn:
    ...         named.index("by_city").within(txn)[b"oslo"], len(named.blob("notes").within(txn)[b"a"])
    (2, 7000)
    """
    named = _of_names(indexes or {}, blobs or {})
    raised: "List[BaseException]" = []
    name = _name_of(path)
    code = c.lib.vah_load(name, c.HAND, _handed(itertools.chain(named, items), raised))
    if raised:
        raise raised[0]
    if code:
        refuse(code, os.fsdecode(path))


def compact(path: Path, folder: Path) -> None:
    """Loads the entries of a store that nobody writes meanwhile into a folder that is empty or is to be made, where they take as few pages as they can. Of one in
    use make a copy first (`Store.copy`).

    Raises as an opening to read only, and as `load`.

    >>> vahondrisa.load(folder + "/old", [(b"apple", 7)])
    >>> vahondrisa.compact(folder + "/old", folder + "/new")
    >>> with vahondrisa.open(folder + "/new") as new:
    ...     new.items()
    [(b'apple', 7)]
    """
    code = c.lib.vah_compact(_name_of(path), _name_of(folder))
    if code:
        refuse(code, os.fsdecode(folder))


def _of_names(indexes: "Mapping[str, Items]", blobs: "Mapping[str, Iterable[Tuple[Bytes, Bytes]]]") -> "Iterator[Tuple[Bytes, int]]":
    """What a store has of names, in the order of its keys: the catalogue with its guard, and of each name the entries and the guard."""
    kinds = {**dict.fromkeys(indexes, INDEX), **dict.fromkeys(blobs, BLOB)}
    if len(kinds) < len(indexes) + len(blobs):
        raise ValueError("a name is that of an index, or of long values, and not of both")
    names = sorted((name.encode(), name) for name in kinds)
    rows = [(_key(ROW, text), kinds[name]) for text, name in names]
    own = (_of_index(text, indexes[name]) if kinds[name] == INDEX else _of_blob(text, blobs[name]) for text, name in sorted(names, key=lambda it: (len(it[0]), it[0])))
    return itertools.chain(rows, [(_key(GUARD, b""), 0)] if rows else [], itertools.chain.from_iterable(own))


def _of_index(name: bytes, items: Items) -> "Iterator[Tuple[Bytes, int]]":
    prefix, most = _key(FIRST, name), c.KEY_MAX - 2 - len(name)
    for key, rid in items:
        whole = bytes_of(key, "key")
        if not 1 <= len(whole) <= most:
            raise ValueError(f"a key of this index has 1 to {most} bytes, not {len(whole)}")
        yield prefix + whole, rid
    yield _key(GUARD, name), 0


def _of_blob(name: bytes, items: "Iterable[Tuple[Bytes, Bytes]]") -> "Iterator[Tuple[Bytes, int]]":
    for key, value in items:
        front = key_of(PARTS, name, bytes_of(key, "key"))
        parts = None if front is None else parts_of(front, bytes_of(value, "value"))
        if parts is None:
            raise ValueError(f"a key of a long value has 1 to {217 - len(name)} bytes here, fewer by one for each byte 0 in it, and not {len(key)}; or its value is too long")
        yield from parts
    yield _key(GUARD, name), 0


def _handed(items: "Iterator[Tuple[Bytes, int]]", raised: "List[BaseException]") -> "Generator[int, Any, None]":
    """What the library asks for entries: it keeps what `items` raises, since no exception passes through C, and answers -1 from then on."""

    def hand() -> "Generator[int, Any, None]":
        try:
            room = yield 0
            while True:
                kept: "List[bytes]" = []  # until the next ones are asked for
                for key, rid in itertools.islice(items, c.SCAN_MAX):
                    whole = bytes_of(key, "key")
                    entry = room[len(kept)]
                    entry.key, entry.len, entry.rid = whole, len(whole), number_of(rid, 64, "rid")
                    kept.append(whole)
                room = yield len(kept)
        except BaseException as it:
            if not isinstance(it, GeneratorExit):
                raised.append(it)
        while raised:
            yield -1

    handed = hand()
    next(handed)
    return handed
