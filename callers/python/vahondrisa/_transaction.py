"""Transactions."""
import math
import threading
import time
from ctypes import byref, c_uint64, c_void_p
from types import TracebackType
from typing import TYPE_CHECKING, Callable, Dict, Generator, List, Optional, Tuple, Type

from . import _library as c
from ._errors import Error, GiveWay, refuse
from ._keys import Keys
from ._savepoint import Savepoint

if TYPE_CHECKING:
    from ._store import Store

# How many milliseconds a call waits before it comes back, so that a signal's handler can run. Those run in the main thread; a transaction that it did not
# begin may come to it too.
MAIN_SLICE, SLICE = 50, 1000


class Transaction(Keys):
    """A transaction, with all keys of the store. A `with` block commits it at its end, or rolls it back where an exception leaves the block.

    Several threads may use it; their calls are taken one after another.

    >>> with store.begin() as txn:
    ...     txn[b"apple"] = 7
    >>> try:
    ...     with store.begin() as txn:
    ...         txn[b"apple"] = 8
    ...         raise RuntimeError("and so it is rolled back")
    ... except RuntimeError:
    ...     pass
    >>> store.get(b"apple")
    7
    """

    def __init__(self, store: "Store", timeout: Optional[float], slice_ms: int) -> None:
        self._store = store  # which is not collected before its transactions
        self._at = c_void_p()  # its name, which the library sets when it begins
        self._timeout, self._slice_ms = timeout, slice_ms
        self._gives_way = False  # a call of it was told so
        self._is_half = False  # a long value is changed in part; else than for a moment only where exceptions of signals came one upon the other
        self._saves: "List[Savepoint]" = []  # those that may be returned to, in the order of their making
        self._long = threading.RLock()  # of who changes a long value, which is several calls, or makes what stands for all calls so far
        self._has_ended = False
        store._active[id(self._at)] = self._at
        self._guard = _guard(store._active, self._at)
        next(self._guard)

    def commit(self) -> None:
        """Makes all that it did durable, and ends it. After Failed it is not known whether it is kept: open the store again to see.
        Where it has to give way it is rolled back."""
        with self._long:
            is_half = self._is_half and not (self._gives_way or self._has_ended or self._store.closed)
            code = c.MUST_ROLL_BACK if is_half else c.lib.vah_commit(self._at)
            if code == c.BUSY:
                code = self._wait(c.lib.vah_commit)
            if code in (c.MUST_ROLL_BACK, c.ROLLING_BACK):
                self.rollback()
            elif code not in (c.BUSY, c.MEMORY):
                self._end()
        if is_half:
            raise Error(code, f"{self._store._path}: the transaction must roll back, as a long value was changed in part")
        if code:
            self._refuse(code)

    def again(self) -> None:
        """After GiveWay: takes back what it did, waits until each older transaction has ended, and begins again. Where Busy is raised, or another
        exception ends the wait, call it again, or roll back."""
        with self._long:
            code = c.lib.vah_again(self._at)
            if code == c.BUSY:
                code = self._wait(c.lib.vah_again)
            if not code:
                self._gives_way = self._is_half = False
                self._saves.clear()
                return
        if code == c.ROLLING_BACK:  # by another thread, whole or in part
            self.rollback()
        elif code not in (c.BUSY, c.DEADLOCK):
            self._end()
        self._refuse(code)

    def rollback(self) -> None:
        """Takes back all that it did, and ends it; once it has ended it does nothing."""
        if not self._has_ended:
            code, tries = c.lib.vah_rollback(self._at), 0
            while code == c.ROLLING_BACK:  # by another thread, which may begin it again
                tries += 1
                time.sleep(min(0.0001 * tries, 0.01))
                code = c.lib.vah_rollback(self._at)
            self._end()
            if code and code not in (c.NO_TRANSACTION, c.CLOSED):  # these: another thread has ended it, or the store
                self._refuse(code)

    def savepoint(self, name: Optional[str] = None) -> Savepoint:
        """Notes where it stands, for a `with` block, whose changes are taken back where an exception leaves it, or for `roll_back` of what is returned. With
        a name `roll_to` finds it too."""
        if name is not None and not isinstance(name, str):
            raise TypeError(f"name must be a str, or None, not {type(name).__name__}")
        with self._long:
            save = Savepoint(self, name, self._changes())
            self._saves.append(save)
        return save

    def roll_to(self, name: str) -> None:
        """Takes back what was done since the last savepoint of a name, as its `roll_back` does; KeyError where there is none.

        >>> with store.begin() as txn:
        ...     with txn.savepoint("fruit"):
        ...         txn[b"apple"] = 7
        ...         txn.roll_to("fruit")
        ...         txn[b"pear"] = 8
        ...     list(txn)
        [b'pear']
        """
        with self._long:
            save = next((it for it in reversed(self._saves) if it._name == name), None)
            if save is None:
                self._changes()
                raise KeyError(name)
            self._return_to(save)

    def _changes(self) -> int:
        """How many changes of it stand."""
        count = c_uint64()
        code = c.lib.vah_savepoint(self._at, byref(count))
        if code:
            self._refuse(code)
        return count.value

    def _return_to(self, save: Savepoint) -> None:
        with self._long:
            if save not in self._saves:
                self._changes()
                raise ValueError("the savepoint has ended")
            if self._gives_way:
                raise GiveWay(c.GIVE_WAY, f"{self._store._path}: {c.lib.vah_strerror(c.GIVE_WAY).decode()}")
            del self._saves[self._saves.index(save) + 1 :]
            code = c.lib.vah_roll_to(self._at, save._changes)
        if code:
            self._refuse(code)

    def _drop(self) -> None:
        """Rolls it back because of an exception, which stays what is told: a store that has failed refuses this too."""
        try:
            self.rollback()
        except (Error, MemoryError):
            pass

    def _end(self) -> None:
        self._has_ended = True
        self._saves.clear()
        self._store._active.pop(id(self._at), None)
        self._guard.close()

    def _settle(self, code: int, answer: int, function: "Callable[..., int]", *arguments: object) -> int:
        if code == c.BUSY:
            code = self._wait(function, *arguments)
        if code and code != answer:
            self._refuse(code)
        return code

    def _wait(self, function: "Callable[..., int]", *arguments: object) -> int:
        """Makes a call that was told to wait until it has another answer, or its time is over. In between a signal's handler can run."""
        return wait(self._store, self._timeout, self._slice_ms, lambda: function(self._at, *arguments))

    def _refuse(self, code: int) -> None:
        if code == c.GIVE_WAY:
            self._gives_way = True
        if code in (c.NO_TRANSACTION, c.ROLLING_BACK, c.MUST_ROLL_BACK) and self._store.closed:
            code = c.CLOSED  # whoever closes it rolls this transaction back
        elif code == c.MUST_ROLL_BACK and self._gives_way:
            code = c.GIVE_WAY
        refuse(code, self._store._path)

    def __enter__(self) -> "Transaction":
        return self

    def __exit__(self, kind: Optional[Type[BaseException]], value: Optional[BaseException], trace: Optional[TracebackType]) -> None:
        if not self._has_ended:
            if kind is None:
                self.commit()
            else:
                self._drop()

    def __repr__(self) -> str:
        state = "ended" if self._has_ended or self._store.closed else "to be rolled back" if self._gives_way or self._is_half else "active"
        return f"<vahondrisa.Transaction of {self._store!r}, {state}>"


def _guard(active: "Dict[int, c_void_p]", at: c_void_p) -> "Generator[None, None, None]":
    """Rolls back the transaction of a name when it is dropped, unless it has ended and is not among the active ones any more.

    It is no `__del__` of the transaction, which would be called for those too that have ended: a Ctrl-C that came just then would be lost in it, as no
    exception leaves a `__del__`.
    """
    try:
        yield
    finally:
        if active.pop(id(at), None) is not None and at:
            c.lib.vah_rollback(at)


def slices(timeout: Optional[float]) -> Tuple[int, int]:
    """The flags of a transaction with a limit of its waits in seconds, and how many milliseconds each of its calls waits at a time."""
    if timeout == 0:
        return c.NO_WAIT, 0
    most = MAIN_SLICE if threading.get_ident() == threading.main_thread().ident else SLICE
    if timeout is None:
        return 0, most
    count = math.ceil(timeout * 1000 / most)  # as many of one length as come to the limit
    return 0, math.ceil(timeout * 1000 / count)


def wait(store: "Store", timeout: Optional[float], slice_ms: int, call: "Callable[[], int]") -> int:
    """Makes a call again that has waited for one slice, until it has another answer than BUSY, or the limit is past."""
    since = time.monotonic() - slice_ms / 1000
    while slice_ms and (timeout is None or time.monotonic() - since < timeout):
        store._opened()
        code = call()
        if code != c.BUSY:
            return code
    return c.BUSY
