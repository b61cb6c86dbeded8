"""Refusals as exceptions."""
import ctypes
import errno
import os
from typing import Any, Dict, NoReturn, Optional, Tuple, Type

from . import _library as c


class Error(Exception):
    """A refusal, in words that name the folder. `code` is its number in vahondrisa.h.

    >>> try:
    ...     vahondrisa.open(folder)         # which is open already
    ... except vahondrisa.Error as it:
    ...     print(it.code, str(it) == folder + ": the store is open in this process already")
    19 True
    """

    code: int = 0

    def __init__(self, code: int, text: Optional[str] = None) -> None:
        super().__init__(text or c.lib.vah_strerror(code).decode())
        self.code = code

    def __reduce__(self) -> "Tuple[Any, ...]":
        return type(self), (self.code, str(self))  # for pickle and copy, which else call it with its text alone


class GiveWay(Error):
    """An older transaction stands in the way: roll back, and begin again, as `Store.write` does.

    >>> older, younger = store.begin(), store.begin()
    >>> older[b"apple"] = 7
    >>> try:
    ...     younger.get(b"apple")
    ... except vahondrisa.GiveWay:
    ...     older.commit()
    ...     younger.again()
    >>> younger.get(b"apple")
    7
    >>> younger.commit()
    """


class Busy(Error):
    """A younger transaction holds what is needed. It was not waited for (`wait=False`), or as long as `timeout` says. Nothing was changed.

    >>> with store.begin(wait=False) as older, store.begin() as younger:
    ...     younger[b"apple"] = 7
    ...     try:
    ...         older.get(b"apple")
    ...     except vahondrisa.Busy:
    ...         print("not now")
    not now
    """


class Deadlock(Error):
    """The call would wait for a transaction of this very thread, or for a thread that waits for this one. Nothing was changed.

    >>> def body(txn):
    ...     store.write(lambda inner: inner.get(b"apple"))
    >>> try:
    ...     store.write(body)
    ... except vahondrisa.Deadlock:
    ...     print("a write within a write")
    a write within a write
    """


class _OfFiles(Error, OSError):
    """An error of the folder or its files, which `except OSError` catches too."""

    def __init__(self, code: int, text: Optional[str] = None, number: Optional[int] = None, path: Optional[str] = None) -> None:
        super().__init__(code, text)
        it: Any = self  # which may have no number, as the system's own have
        it.errno, it.filename, it.strerror = number, path, os.strerror(number) if number else None

    def __str__(self) -> str:
        return str(self.args[0])

    def __reduce__(self) -> "Tuple[Any, ...]":
        return type(self), (self.code, str(self), self.errno, self.filename)


class Locked(_OfFiles):
    """The store is open already, elsewhere or in this process, which it then says: an OSError with the number EBUSY.

    >>> try:
    ...     vahondrisa.open(folder)
    ... except vahondrisa.Locked as it:
    ...     print(it.strerror)
    Device or resource busy
    """


class NotAStore(_OfFiles):
    """The files are of no store, or are damaged: an OSError with the number EINVAL.

    >>> os.mkdir(folder + "2")
    >>> with open(folder + "2/log", "wb") as file:
    ...     file.write(b"x" * 100)
    100
    >>> try:
    ...     vahondrisa.open(folder + "2")
    ... except vahondrisa.NotAStore as it:
    ...     print(isinstance(it, OSError))
    True
    """


class Failed(_OfFiles):
    """The store takes no further call: close it, and open it again; or it was not opened. An OSError with the system's number, where it is known, and
    with the system's error as `__cause__`.

    >>> try:
    ...     vahondrisa.open("/proc/none/here")
    ... except OSError as it:
    ...     print(type(it).__name__, it.strerror)
    Failed No such file or directory
    """


class Missing(Failed, FileNotFoundError):
    """There is no folder to look at: a FileNotFoundError, of an opening with `read_only=True`, which makes nothing.

    >>> try:
    ...     vahondrisa.open(folder + "/none", read_only=True)
    ... except FileNotFoundError as it:
    ...     print(it.strerror, os.path.exists(folder + "/none"))
    No such file or directory False
    """


class ReadOnly(_OfFiles):
    """The store was opened to be read only: an OSError with the number EROFS. Nothing was changed.

    >>> vahondrisa.open(folder + "/looked").close()
    >>> with vahondrisa.open(folder + "/looked", read_only=True) as looked:
    ...     try:
    ...         looked.write(lambda txn: txn.put(b"apple", 7))
    ...     except vahondrisa.ReadOnly as it:
    ...         print(it.strerror)
    Read-only file system
    """


class NotCopied(_OfFiles):
    """The store was not copied, and goes on: the folder has something in it, with the number ENOTEMPTY, or a call of the system on the copy's files failed. An OSError
    with the system's number, and with the system's error as `__cause__`. What may be left of a copy raises NotAStore when it is opened; where the very last
    call failed, a sync, it is a whole one, of which a power cut may leave less.

    >>> try:
    ...     store.copy(folder)              # which is the store's own
    ... except vahondrisa.NotCopied as it:
    ...     print(it.strerror)
    Directory not empty
    """


_KINDS: "Dict[int, Type[Error]]" = {
    c.GIVE_WAY: GiveWay, c.BUSY: Busy, c.DEADLOCK: Deadlock, c.LOCKED: Locked, c.NOT_A_STORE: NotAStore,
    c.CAPACITY: Failed, c.LOG_FULL: Failed, c.DEVICE: Failed, c.FAILED: Failed,
    c.READ_ONLY: ReadOnly, c.NOT_EMPTY: NotCopied, c.NOT_COPIED: NotCopied,
}
_NUMBERS = {c.LOCKED: errno.EBUSY, c.NOT_A_STORE: errno.EINVAL, c.READ_ONLY: errno.EROFS, c.NOT_EMPTY: errno.ENOTEMPTY}


def refuse(code: int, path: Optional[str] = None, is_look: bool = False) -> NoReturn:
    """Raises what a code of this thread's last call stands for, which may be an opening that only reads."""
    system = ctypes.get_errno()
    text = c.lib.vah_last_error().decode(errors="replace")
    if code == c.MEMORY:
        raise MemoryError(text)
    if code == c.NO_TRANSACTION:
        raise ValueError("the transaction has ended")
    if code == c.CLOSED:
        raise ValueError("the store is closed")
    if code in (c.KEY_LENGTH, c.POOL_SIZE, c.INVALID, c.NOT_RISING):
        raise ValueError(text)
    kind = _KINDS.get(code, Error)
    if is_look and code == c.DEVICE and system == errno.ENOENT:
        kind, text = Missing, f"{path}: there is no such folder"
    if not issubclass(kind, _OfFiles):
        raise kind(code, text)
    number = _NUMBERS.get(code, system if code in (c.DEVICE, c.FAILED, c.NOT_COPIED) and system else None)
    cause = OSError(number, os.strerror(number)) if number and code not in _NUMBERS else None
    raise kind(code, text, number, path) from cause
