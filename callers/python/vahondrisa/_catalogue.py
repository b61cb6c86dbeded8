"""The catalogue of a store: a row for each name, and as its row id what it names."""
from typing import TYPE_CHECKING, List

from ._layout import FIRST, GUARD, ROW, key_of

if TYPE_CHECKING:
    from ._store import Store
    from ._transaction import Transaction

INDEX, BLOB = 1, 2
_KINDS = {INDEX: "an index", BLOB: "a set of long values"}


def _key(which: int, name: bytes) -> bytes:
    key = key_of(which, name)
    if key is None:
        raise ValueError(f"name must have 1 to 31 bytes, not {len(name)}")
    return key


def make(store: "Store", name: str, kind: int) -> bytes:
    """The prefix of a name. Where the store has none of that name, it is made; where it has another kind of it, that is refused."""
    if not isinstance(name, str):
        raise TypeError(f"name must be a str, not {type(name).__name__}")
    text = name.encode()
    row, prefix, guard, last = _key(ROW, text), _key(FIRST, text), _key(GUARD, text), _key(GUARD, b"")

    def body(txn: "Transaction") -> int:
        if row not in txn:
            for key, rid in ((last, 0), (guard, 0), (row, kind)):
                txn.insert(key, rid)
        return txn[row]

    found = store.write(body)
    if found != kind:
        raise ValueError(f"{name!r} names {_KINDS.get(found, 'another thing')} already, and not {_KINDS[kind]}")
    return prefix


def names(store: "Store", kind: int) -> List[str]:
    """The names of a kind."""
    front = _key(FIRST, b"")
    return store.write(lambda txn: [row[len(front) :].decode(errors="replace") for row, rid in txn.prefix(front) if rid == kind])
