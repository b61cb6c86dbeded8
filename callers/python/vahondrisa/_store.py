"""Stores."""
import ctypes
import errno
import os
import threading
import time
import weakref
from ctypes import byref, c_void_p
from types import TracebackType
from typing import Callable, Dict, Generator, Iterator, List, Optional, Tuple, Type, TypeVar, Union, overload

from . import _library as c
from ._arguments import NONE, Alone, Bytes, number_of, seconds_of
from ._catalogue import BLOB, INDEX, make, names
from ._errors import Deadlock, Error, Locked, refuse
from ._keys import Entry
from ._named import Blob, Index
from ._transaction import Transaction, slices, wait as _wait

T = TypeVar("T")
Path = Union[str, bytes, "os.PathLike[str]", "os.PathLike[bytes]"]


def open(
    path: Path, *, frames: int = 1024, max_pages: int = 1_000_000, redo_bytes: int = c.REDO_GROWS, log_bytes: int = c.LOG_GROWS,
    timeout: Optional[float] = None, progress: "Optional[Callable[[int], object]]" = None, read_only: bool = False, cache_bytes: int = c.CACHE_FITS,
) -> "Store":
    """Opens the store in a folder, or makes one, with the folder and those above it.

    `frames` are pages of 4 KiB kept in memory, 8 to 1,024, and `cache_bytes` memory for more of them, at most 1,020 MiB, which is asked for at once, and by
    default twice what the file of pages has, at most 64 MiB; `max_pages` the most that the store may have; `redo_bytes` the most log that the next
    opening has to redo, 0 for any, and by default 16 MiB, or 7 times the file of pages; `log_bytes` the most that it has to read, where now and then
    no transaction is active, 0 for any, and by default 64 MiB, or 8 times. `timeout` is how many seconds a call waits at most for other transactions
    before it raises Busy. `progress` is called now and then with the number of bytes read so far; an exception that it raises ends the opening, as Ctrl-C
    does, and leaves the store as it was. With `read_only=True` the files are only read, and no byte of them is changed: what would change a key raises ReadOnly, the store must
    be there, and any number may look at it at a time, while nobody has it open to write.

    Raises Locked, NotAStore, Failed where a call of the system failed, all of them OSErrors, and ValueError, TypeError, MemoryError.

    >>> vahondrisa.open(folder + "/orders", frames=64, timeout=5.0).close()
    """
    name = _name_of(path)
    config = c.Config(ctypes.sizeof(c.Config))
    config.frames, config.max_pages = number_of(frames, 32, "frames"), number_of(max_pages, 32, "max_pages")
    config.redo_bytes, config.log_bytes = number_of(redo_bytes, 64, "redo_bytes"), number_of(log_bytes, 64, "log_bytes")
    config.read_only, config.cache_bytes = bool(read_only), number_of(cache_bytes, 64, "cache_bytes")
    timeout = seconds_of(timeout, "timeout")
    raised: "List[BaseException]" = []
    config.progress, config.with_ = c.TELL, _told(progress, raised)
    # (made before it is opened, so that it is closed where a signal's exception comes in between)
    store = Store(os.fsdecode(path), timeout)
    code = c.lib.vah_open(name, byref(config), byref(store._at))
    if raised and not code:
        try:
            store.close()
        except Error:
            pass  # what `progress` raised is told
    store._is_closing = bool(code or raised)
    if raised:
        raise raised[0]
    if code == c.LOCKED and _is_open_here(store._path):
        raise Locked(code, f"{store._path}: the store is open in this process already", errno.EBUSY, store._path)
    if code:
        refuse(code, store._path, is_look=read_only)
    store._folder = _folder_of(store._path)
    _stores.add(store)
    return store


_stores: "weakref.WeakSet[Store]" = weakref.WeakSet()  # those that this process has opened


def _folder_of(path: str) -> "Optional[Tuple[int, ...]]":
    """What tells a folder from all others, by whatever path, and this process from one that it was forked from."""
    try:
        it = os.stat(path)
    except OSError:
        return None
    return os.getpid(), it.st_dev, it.st_ino


def _is_open_here(path: str) -> bool:
    """Whether this process has a store of the folder open."""
    folder = _folder_of(path)
    return folder is not None and any(it._folder == folder and not it._is_closed for it in list(_stores))


def _name_of(path: Path) -> bytes:
    """A path as the library takes it."""
    name = os.fsencode(path)
    if b"\0" in name:
        raise ValueError("path must not have a byte 0")
    return name


def build() -> str:
    """The release of the library below, and what was built of it: `0.1.0 proved`, or `0.1.0 unproved` by a library that was built without its proofs.

    >>> vahondrisa.build().split()[1] in ("proved", "unproved")
    True
    """
    text: str = c.lib.vah_build().decode()
    return text


def _told(progress: "Optional[Callable[[int], object]]", raised: "List[BaseException]") -> "Generator[int, int, None]":
    """What the library sends numbers to: it tells `progress`, and keeps what that raises, since no exception passes through C. It answers 0, and 1 from then on.

    The interpreter looks for signals where it is entered. A function would be left by what Ctrl-C raises before its first line, and that be lost; this is
    entered within its `try`.
    """

    def tell() -> "Generator[int, int, None]":
        try:
            while True:
                count = yield 0
                if progress is not None:
                    progress(count)
        except BaseException as it:
            if not isinstance(it, GeneratorExit):
                raised.append(it)
        while raised:
            yield 1

    told = tell()
    next(told)
    return told


class Store(Alone):
    """A store that is open. Any thread may use it. A `with` block closes it at its end.

    It has some words of a dict, each of them a transaction of its own, which is on the disk when the word returns. Within a `write` of the same thread what
    only reads is a part of that; what changes a key raises Deadlock there, as a `write` does.

    >>> with vahondrisa.open(folder + "/fruit") as fruit:
    ...     fruit[b"apple"] = 7
    ...     fruit[b"apple"], fruit.get(b"plum"), b"plum" in fruit
    ...     fruit.put(b"apple", 8), fruit.pop(b"apple"), fruit.pop(b"apple", None)
    ...     fruit.write(lambda txn: txn.update({b"fig": 1, b"pear": 2}))
    ...     fruit.items()
    (7, None, False)
    (7, 8, None)
    [(b'fig', 1), (b'pear', 2)]
    """

    _is_closed = True  # of one whose making a signal's exception cut off
    _folder: "Optional[Tuple[int, ...]]" = None

    def __init__(self, path: str, timeout: Optional[float]) -> None:
        self._at = c_void_p()  # its name, which the library sets when it is opened
        self._path, self._timeout = path, timeout
        # The names of transactions that may be active, by their identity, each here before it is begun: so a close knows all of them, whatever exceptions of
        # signals came in between. The library gives no name twice.
        self._active: "Dict[int, c_void_p]" = {}
        self._writes: "Dict[int, Transaction]" = {}  # by thread, those that it is within a `write` of
        self._is_closing = self._is_closed = False

    def begin(self, *, wait: bool = True, timeout: Optional[float] = None) -> Transaction:
        """Begins a transaction: use it in a `with` block, or end it by `commit` or `rollback`.

        It waits where 64 are active, and its calls where a younger transaction holds what they need, for `timeout` seconds at most, or as many as `open`
        was told; then they raise Busy. With `wait=False` they do so at once, but where 64 are active this raises Error with the code 12. A thread that
        would wait for itself is told Deadlock.
        """
        limit = seconds_of(timeout, "timeout") if wait else 0
        return self._begin(self._timeout if limit is None else limit)

    def _begin(self, limit: Optional[float]) -> Transaction:
        flags, slice_ms = slices(limit)
        txn = Transaction(self, limit, slice_ms)
        at = self._opened()
        begin: "Callable[..., int]" = c.lib.vah_begin_within
        call: "Callable[[], int]" = lambda: begin(at, flags, slice_ms, byref(txn._at))
        code = call()
        if code == c.BUSY:
            code = _wait(self, limit, slice_ms, call)
        if code:
            txn._end()
            refuse(code, self._path)
        return txn

    def write(self, body: "Callable[[Transaction], T]", *, timeout: Optional[float] = None) -> T:
        """Calls `body` with a transaction and commits it; where an exception leaves `body` it is rolled back. What `body` returned.

        Where it has to give way to an older transaction it is rolled back and `body` is called again, whatever it returned or raised: so it should have no
        other effect. After some restarts it has precedence over all, so the restarts end. A `write` within a `write` of the same thread raises Deadlock.

        >>> def count(txn):
        ...     txn[b"count"] = txn.get(b"count", 0) + 1
        ...     return txn[b"count"]
        >>> store.write(count), store.write(count)
        (1, 2)
        """
        outer = self._writes.get(threading.get_ident())
        if outer is not None and not outer._has_ended:
            raise Deadlock(c.DEADLOCK, f"{self._path}: a write within a write of the same thread")
        txn = self.begin(timeout=timeout)
        try:
            self._writes[threading.get_ident()] = txn
            while True:
                try:
                    answer = body(txn)
                except Exception:
                    if txn._has_ended or not txn._gives_way:
                        raise
                else:
                    if not txn._has_ended and not txn._gives_way:
                        txn.commit()
                    if txn._has_ended:  # `body` may have ended it
                        return answer
                txn.again()
        except BaseException:
            txn._drop()
            raise
        finally:
            self._writes.pop(threading.get_ident(), None)

    def _read(self, body: "Callable[[Transaction], T]") -> T:
        """Calls `body`, which only reads, with the transaction of the `write` that the thread is in, or else with one of its own."""
        outer = self._writes.get(threading.get_ident())
        return self.write(body) if outer is None or outer._has_ended else body(outer)

    @overload
    def get(self, key: Bytes) -> Optional[int]: ...
    @overload
    def get(self, key: Bytes, default: Union[int, T]) -> Union[int, T]: ...
    def get(self, key: Bytes, default: object = None) -> object:
        """The row id of a key, or the default where it is not there."""
        return self._read(lambda txn: txn.get(key, default))

    def put(self, key: Bytes, rid: int) -> Optional[int]:
        """Puts a key in, or gives one that is there another row id. The row id that it had, or None."""
        return self.write(lambda txn: txn.put(key, rid))

    @overload
    def pop(self, key: Bytes) -> int: ...
    @overload
    def pop(self, key: Bytes, default: Union[int, T]) -> Union[int, T]: ...
    def pop(self, key: Bytes, default: object = NONE) -> object:
        """Takes a key out, and returns the row id that it had; where it is not there the default, or KeyError without one."""
        return self.write(lambda txn: txn.pop(key, default))

    def items(self) -> "List[Entry]":
        """All entries as they are at one moment, in order, as a list: of a large store read ranges in a transaction."""
        return self._read(lambda txn: list(txn.range()))

    def __getitem__(self, key: Bytes) -> int:
        return self._read(lambda txn: txn[key])

    def __setitem__(self, key: Bytes, rid: int) -> None:
        self.write(lambda txn: txn.__setitem__(key, rid))

    def __delitem__(self, key: Bytes) -> None:
        self.write(lambda txn: txn.__delitem__(key))

    def __contains__(self, key: object) -> bool:
        return self._read(lambda txn: key in txn)

    def __iter__(self) -> Iterator[bytes]:
        """The keys as they are at one moment, in order."""
        return iter([key for key, _ in self.items()])

    def index(self, name: str) -> Index:
        """The named index, which is made where it is not there yet, in a transaction of its own. Names have 1 to 31 bytes in UTF-8.

        Its entries are keys of the store that begin with the name: docs/GUIDE.md, "Several indexes in one store". Keys of the program's own, beside
        all indexes, begin with a byte of 32 or more, as letters and digits do.
        """
        return Index(self, name, make(self, name, INDEX))

    def blob(self, name: str) -> Blob:
        """The named set of long values, which is made where it is not there yet, in a transaction of its own. Names have 1 to 31 bytes in UTF-8."""
        return Blob(self, name, make(self, name, BLOB))

    def indexes(self) -> "List[str]":
        """The names of all indexes, in order."""
        return names(self, INDEX)

    def blobs(self) -> "List[str]":
        """The names of all sets of long values, in order."""
        return names(self, BLOB)

    def checkpoint(self) -> None:
        """Bounds what the next opening has to redo. Taken by itself as `redo_bytes` asks."""
        self._call(c.lib.vah_checkpoint)

    def switch(self) -> bool:
        """Writes all pages, and goes on in the other log, which is empty: the next opening reads nothing of this one. Made by itself as `log_bytes` asks.
        Whether it was made: not while a transaction is active.
        """
        code = c.lib.vah_switch(self._opened())
        if code and code != c.ACTIVE:
            refuse(code, self._path)
        return not code

    def flush(self) -> None:
        """Makes all records so far durable, those of active transactions too."""
        self._call(c.lib.vah_flush)

    def copy(self, folder: Path, *, progress: "Optional[Callable[[int], object]]" = None) -> None:
        """Copies the store into a folder that is empty or is to be made, while other threads go on. The copy is a store, and on the disk. It has what a stop at its end
        might have left: each commit that has returned by then, of the others some, and each of them whole. `progress` is called for each 256 KiB with the
        number of bytes copied so far; an exception that it raises ends the copy, as Ctrl-C does, and its files are taken away.

        Raises NotCopied, and Busy where another copy of the store is under way.

        >>> store.write(lambda txn: txn.put(b"apple", 7))
        >>> store.copy(folder + "_backup", progress=lambda count: print(count > 0))
        True
        >>> with vahondrisa.open(folder + "_backup") as backup:
        ...     backup.get(b"apple")
        7
        """
        raised: "List[BaseException]" = []
        name = _name_of(folder)
        code = c.lib.vah_copy_with(self._opened(), name, c.TELL, _told(progress, raised))
        if raised:
            raise raised[0]
        if code == c.BUSY:
            self._opened()  # another thread is to close it
        if code:
            refuse(code, os.fsdecode(folder))

    def info(self) -> Dict[str, int]:
        """How the store stands: active transactions, dirty_pages, durable_end, redo_from, redone, has_failed; and since the opening restarts, waits, forces,
        syncs, page_reads, page_writes, log_bytes."""
        info = c.Info()
        self._call(c.lib.vah_stat_with, byref(info), ctypes.sizeof(info))
        return {name: getattr(info, name) for name, _ in c.Info._fields_}

    def close(self) -> None:
        """Rolls back what is active, and ends the store; a second time it does nothing. What was committed is kept whatever it raises.

        Calls that other threads are within are waited for; those that wait for other transactions raise ValueError, as each call from now on.
        """
        self._is_closing = True
        code, tries = self._end(), 0
        while code == c.ACTIVE:
            tries += 1
            time.sleep(min(0.0001 * tries, 0.01))  # for those that the try before has woken
            code = self._end()
        is_first, self._is_closed = not self._is_closed, True
        if code and code != c.CLOSED and is_first:
            refuse(code, self._path)

    def _end(self) -> int:
        """Tries to end the store, which wakes those that wait in a call of it, then rolls back what is active, and tries again."""
        code: int = c.lib.vah_close(self._at)
        if code == c.ACTIVE:
            for at in list(self._active.values()):
                # found by the next try where it is about to begin, or where another thread takes it back, as that may begin it again
                if at and c.lib.vah_rollback(at) != c.ROLLING_BACK:
                    self._active.pop(id(at), None)
            code = c.lib.vah_close(self._at)
        return code

    @property
    def closed(self) -> bool:
        """Whether it was closed, or is about to be."""
        return self._is_closing

    @property
    def path(self) -> str:
        """The folder, as it was named at the opening."""
        return self._path

    def _opened(self) -> c_void_p:
        if self._is_closing:
            raise ValueError("the store is closed")
        return self._at

    def _call(self, function: "Callable[..., int]", *arguments: object) -> None:
        code = function(self._opened(), *arguments)
        if code:
            refuse(code, self._path)

    def __enter__(self) -> "Store":
        return self

    def __exit__(self, kind: Optional[Type[BaseException]], value: Optional[BaseException], trace: Optional[TracebackType]) -> None:
        self.close()

    def __del__(self) -> None:
        if not self._is_closed and self._at:
            self._is_closing = True
            self._end()  # once: nobody has it, or the interpreter ends beside daemon threads

    def __repr__(self) -> str:
        return f"<vahondrisa.Store {self._path!r}{', closed' if self.closed else ''}>"
