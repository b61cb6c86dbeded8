"""Savepoints."""
from types import TracebackType
from typing import TYPE_CHECKING, Optional, Type

from ._arguments import Alone
from ._errors import Error

if TYPE_CHECKING:
    from ._transaction import Transaction


class Savepoint(Alone):
    """Where a transaction stood: `Transaction.savepoint` makes it. A `with` block leaves what was done within it, or takes it back where an exception leaves the
    block, which goes on up; the transaction goes on.

    All locks stay. A return to an earlier one ends those that were made after it. Where a call was told GiveWay nothing is taken back, as the whole
    transaction is to begin again. Threads that share a transaction share its changes.

    >>> with store.begin() as txn:
    ...     txn[b"apple"] = 7
    ...     try:
    ...         with txn.savepoint():
    ...             txn[b"apple"] = 8
    ...             txn[b"pear"]                # which is not there
    ...     except KeyError:
    ...         print(txn[b"apple"])
    ...     with txn.savepoint("fruit") as save:
    ...         txn[b"plum"] = 9
    ...         save.roll_back()
    ...         txn[b"fig"] = 10
    ...     list(txn.items())
    7
    [(b'apple', 7), (b'fig', 10)]
    """

    def __init__(self, txn: "Transaction", name: Optional[str], changes: int) -> None:
        self._txn, self._name, self._changes = txn, name, changes

    @property
    def name(self) -> Optional[str]:
        """Its name, or None."""
        return self._name

    def roll_back(self) -> None:
        """Takes back what was done since it was made; it may be returned to again. After MemoryError the transaction's next call takes back what is left."""
        self._txn._return_to(self)

    def __enter__(self) -> "Savepoint":
        return self

    def __exit__(self, kind: Optional[Type[BaseException]], value: Optional[BaseException], trace: Optional[TracebackType]) -> None:
        with self._txn._long:
            saves = self._txn._saves
            if kind is not None and self in saves and not self._txn._gives_way:
                try:
                    self.roll_back()
                except (Error, MemoryError, ValueError):
                    pass  # the exception of the block stays what is told; a store that has failed refuses this too
            if self in saves:
                saves.remove(self)

    def __repr__(self) -> str:
        return f"<vahondrisa.Savepoint {'' if self._name is None else repr(self._name) + ' '}at {self._changes} changes of {self._txn!r}>"
