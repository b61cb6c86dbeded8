"""A persistent ordered index with transactions, in a folder: keys of 1 to 255 bytes, each with a row id (`rid`) of 64 bits.

    import vahondrisa

    with vahondrisa.open("keys") as store:
        with store.begin() as txn:          # commits at the end, rolls back where an exception leaves the block
            txn[b"apple"] = 7               # puts, or replaces
            txn.insert(b"pear", 8)          # puts; False where it is there already
            print(txn[b"apple"], b"plum" in txn, txn.get(b"plum"))
            for key, rid in txn.range(b"a", b"z"):
                print(key, rid)

        def count(txn: vahondrisa.Transaction) -> None:
            txn[b"fig"] = txn.get(b"fig", 0) + 1

        store.write(count)                  # called again, where it has to give way to an older transaction
        store[b"plum"] = 5                  # a transaction by itself, as is each word of a store
        print(store[b"plum"], store.items())

Any thread may use a store, and a transaction. Ctrl-C ends a call that waits. A store has room for several indexes, by name (`Store.index`), and for
values of bytes (`Store.blob`).
"""
from ._errors import Busy, Deadlock, Error, Failed, GiveWay, Locked, Missing, NotAStore, NotCopied, ReadOnly
from ._keys import Keys, Range
from ._load import compact, load
from ._named import Blob, Index, Values
from ._savepoint import Savepoint
from ._store import Store, build, open
from ._transaction import Transaction

__all__ = [
    "open", "load", "compact", "build", "Store", "Transaction", "Savepoint", "Keys", "Range", "Index", "Blob", "Values",
    "Error", "GiveWay", "Busy", "Deadlock", "Locked", "NotAStore", "Failed", "Missing", "ReadOnly", "NotCopied",
]
__version__ = "0.1.0"
