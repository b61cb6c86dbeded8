"""Arguments that nobody would hand in on purpose: each call takes them or raises in words, and the store has what it had."""
import subprocess
import unittest

from support import Case

# In a process of its own, whose end shows a crash. It prints a line for each call that was not answered as it should be, and how many it made.
HOSTILE = r'''
import array, copy, decimal, fractions, functools, os, pickle, sys, vahondrisa

class Own(Exception): pass
class Odd:
    def __index__(self): raise Own("index")
    def __fspath__(self): return 5
KEYS = [None, 5, "a", 1.5, True, (), [b"a"], {}, object(), b"", bytearray(), memoryview(b""), b"k" * 256, bytearray(b"k" * 300), b"k" * 10**6, array.array("I", [1] * 70),
        memoryview(b"abcdef")[::2], range(3), bytes, Ellipsis, slice(None, None, 2), slice("a", "b"), slice(b"b", b"a"), slice(0, 5), float("nan"), Odd()]
RIDS = [None, -1, 1 << 64, 1 << 5000, 1.0, "1", b"1", float("inf"), decimal.Decimal(1), fractions.Fraction(1), 1j, [], object(), Odd()]
SECONDS = [-1, float("nan"), -float("inf"), "1", b"1", [], True, 1j, Odd()]
UPDATES = [None, 5, [1], [(b"a",)], {"a": 1}, {b"a": "1"}, [(b"a", 1, 2)], "ab", b"ab"]
SINGLE = [copy.copy, copy.deepcopy, pickle.dumps, hash, repr, bool, len, iter, reversed, list, sorted, lambda it: it < it, lambda it: it + it, lambda it: it * 2,
          lambda it: it(), lambda it: it[0], lambda it: it[None:], lambda it: [] in it, lambda it: it.none, lambda it: next(it)]
REFUSED = (TypeError, ValueError, LookupError, AttributeError, MemoryError, vahondrisa.Error, Own, StopIteration)
BASE = {b"apple": 7, b"pear": 8}
count = 0

def hold(what, call, *arguments):
    """Makes a call, which may be refused in words."""
    global count
    count += 1
    try:
        call(*arguments)
    except REFUSED as it:
        if not str(it) and not isinstance(it, (KeyError, StopIteration)):
            print(what, "has no words:", repr(it))
    except BaseException as it:
        print(what, "raised", repr(it))

def of_keys(is_blob):
    """Calls of what has keys, as functions of that."""
    for name in ("get", "seek", "next", "prev", "range", "prefix", "pop", "delete", "size", "savepoint", "roll_to", "__contains__", "__getitem__", "__delitem__"):
        for it in KEYS:
            yield f"{name}({it!r:.30})", lambda keys, name=name, it=it: list(getattr(keys, name)(it) or ())
    for name in ("put", "insert", "setdefault", "__setitem__"):
        for it in KEYS:
            yield f"{name}({it!r:.30}, ..)", lambda keys, name=name, it=it: getattr(keys, name)(it, b"v" if is_blob else 1)
        for it in RIDS:
            yield f"{name}(.., {it!r:.30})", lambda keys, name=name, it=it: getattr(keys, name)(b"new", it)
    for it in KEYS:
        yield f"range(.., {it!r:.30})", lambda keys, it=it: list(keys.range(None, it))
        yield f"[{it!r:.30}:]", lambda keys, it=it: list(keys[it:])
        yield f"[:{it!r:.30}]", lambda keys, it=it: list(keys[:it])
    for it in RIDS + [0]:
        yield f"batch={it!r:.30}", lambda keys, it=it: list(keys.range(batch=it))
        yield f"batch={it!r:.30}", lambda keys, it=it: list(keys.prefix(b"a", batch=it))
    for it in UPDATES:
        yield f"update({it!r:.30})", lambda keys, it=it: keys.update(it)
        yield f"|= {it!r:.30}", lambda keys, it=it: keys.__ior__(it)
    for i, it in enumerate(SINGLE):
        yield f"{i} of it", it

def of_store(store):
    for it in KEYS:
        for name in ("get", "__getitem__", "__contains__"):
            yield f"{name}({it!r:.30})", lambda name=name, it=it: getattr(store, name)(it)
    for it in RIDS:
        yield f"put(.., {it!r:.30})", lambda it=it: store.put(b"pear", it)
    for it in (None, 5, "x", lambda: 0, lambda a, b: 0, lambda txn: txn.rollback(), lambda txn: 1 / len(()) if txn.get(b"none") else None, int):
        yield f"write({it!r:.30})", lambda it=it: store.write(it)
    for it in SECONDS:
        yield f"begin({it!r:.30})", lambda it=it: store.begin(timeout=it).rollback()
        yield f"write(.., {it!r:.30})", lambda it=it: store.write(lambda txn: None, timeout=it)
        yield f"open(.., timeout={it!r:.30})", lambda it=it: vahondrisa.open(folder + "2", timeout=it).close()
    for it in (None, 5, b"a", "", "n" * 32, "\u65e5" * 11, "\udcff", "numbers", "texts", []):
        yield f"index({it!r:.30})", lambda it=it: store.index(it) if it != "numbers" else store.blob(it)
        yield f"blob({it!r:.30})", lambda it=it: store.blob(it) if it != "texts" else store.index(it)
    for it in (None, 5, 1.5, [], "", "a\0", b"\0", Odd(), "/proc/none", "/dev/null", "/dev/null/x", "a" * 300, "a/" * 5000, folder, folder + "/within", folder + "/log", "\udcff\0"):
        yield f"copy({it!r:.30})", lambda it=it: store.copy(it)
        yield f"open({it!r:.30})", lambda it=it: vahondrisa.open(it).close()
        yield f"look({it!r:.30})", lambda it=it: vahondrisa.open(it, read_only=True).close()
    for name in ("frames", "max_pages", "redo_bytes", "log_bytes", "cache_bytes"):
        for it in RIDS + [7, 1 << 32, (1 << 64) - 2]:
            yield f"open(.., {name}={it!r:.30})", lambda name=name, it=it: vahondrisa.open(folder + "2", **{name: it}).close()
    for it in (5, "x", b"", []):
        yield f"open(.., progress={it!r})", lambda it=it: vahondrisa.open(folder + "2", progress=it).close()
    for it in (store, index, blob):
        for i, single in enumerate(SINGLE):
            yield f"{i} of {type(it).__name__}", lambda it=it, single=single: single(it)
    for it in (None, 5, "x", store, index):
        yield f"within({it!r:.30})", lambda it=it: index.within(it)
        yield f"within({it!r:.30})", lambda it=it: blob.within(it)

folder = sys.argv[1]
os.chdir(os.path.dirname(folder))
store = vahondrisa.open(folder)
store.write(lambda txn: txn.update(BASE))
index, blob = store.index("numbers"), store.blob("texts")
store.write(lambda txn: (index.within(txn).update(BASE), blob.within(txn).update({b"a": b"A" * 600})))
whole = store.items()

def look(what):
    if store.items() != whole:
        sys.exit(f"after {what} the entries are others")

for of in (lambda txn: txn, index.within, blob.within):
    for what, call in of_keys(of == blob.within):
        txn = store.begin()
        hold(what, call, of(txn))
        txn.rollback()
        look(what)
for what, call in of_store(store):
    hold(what, call)
    look(what)
ended = store.begin()
ended.commit()
store.close()
for keys in (ended, index.within(ended), blob.within(ended)):
    for what, call in of_keys(False):
        hold(f"ended: {what}", call, keys)
for what, call in of_store(store):
    hold(f"closed: {what}", call)
store = vahondrisa.open(folder)
look("all of it")
store.close()
print(count)
'''


class Hostile(Case):
    def test_no_argument_harms_a_store(self):
        with self.run_on(HOSTILE, stderr=subprocess.STDOUT) as run:
            said = run.communicate()[0].decode().split("\n")
        self.assertEqual((run.returncode, said[:-2]), (0, []))
        self.assertGreater(int(said[-2]), 4000)


if __name__ == "__main__":
    unittest.main()
