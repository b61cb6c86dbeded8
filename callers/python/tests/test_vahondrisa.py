import itertools
import os
import signal
import subprocess
import sys
import unittest

import vahondrisa
from support import Case, together

COMMITS = """
import sys, vahondrisa
store = vahondrisa.open(sys.argv[1])
turn = 0
while True:
    store.write(lambda txn: [txn.insert(b"%d.%d" % (turn, j), turn) for j in range(10)])
    print(turn, flush=True)
    turn += 1
"""

# An exception comes out of a signal's handler somewhere in each turn: in a call, between two of them, or at a block's end.
INTERRUPTED = """
import signal, sys, vahondrisa
class Stop(Exception): pass
def stop(*_): raise Stop
signal.signal(signal.SIGALRM, stop)
store = vahondrisa.open(sys.argv[1])
turn, stops, patience = 0, 0, 1
while stops < 150:
    begun = turn
    try:
        signal.setitimer(signal.ITIMER_REAL, patience * (0.0002 + (stops * 37 % 100) * 0.00002))
        for turn in range(turn + 1, turn + 1000):
            with store.begin() as txn:
                for j in range(10):
                    txn.insert(b"%d.%d" % (turn, j), turn)
    except Stop:
        stops += 1
        patience = 1 if turn > begun + 1 else 2 * patience  # a machine that is busy takes longer for one turn
        txn = None  # while no signal comes
signal.setitimer(signal.ITIMER_REAL, 0)
print(turn)
"""


# A body meets a full disk, and so its rollback fails too.
FULL = """
import resource, sys, vahondrisa
class Own(Exception): pass
def fill(txn):
    for i in range(100000):
        txn[b"%0200d" % i] = i
def own(txn):
    try:
        fill(txn)
    except vahondrisa.Failed:
        raise Own from None
def within(body):
    with store.begin() as txn:
        body(txn)
for turn, call in enumerate((lambda body: store.write(body), within)):
    for body, words in ((fill, "8"), (own, "own")):
        resource.setrlimit(resource.RLIMIT_FSIZE, (resource.RLIM_INFINITY, resource.RLIM_INFINITY))
        store = vahondrisa.open(sys.argv[1] + words + str(turn), frames=8)
        resource.setrlimit(resource.RLIMIT_FSIZE, (600000, resource.RLIM_INFINITY))
        try:
            call(body)
        except (vahondrisa.Failed, Own) as it:
            print(getattr(it, "code", "own"))
"""


# Another process has the store.
SECOND = """
import sys, vahondrisa
try:
    vahondrisa.open(sys.argv[1])
except vahondrisa.Locked as it:
    print(it)
"""


# The pool finds no memory: the opening is refused, and the store is as it was.
NARROW = """
import resource, sys, vahondrisa
resource.setrlimit(resource.RLIMIT_AS, (1 << 29, resource.RLIM_INFINITY))
try:
    vahondrisa.open(sys.argv[1], cache_bytes=1020 << 20)
except MemoryError:
    print("none")
with vahondrisa.open(sys.argv[1], cache_bytes=0) as store:
    print(store.get(b"a"))
"""


class Stores(Case):
    def test_keys_are_there_when_opened_again(self):
        with vahondrisa.open(self.dir) as store:
            with store.begin() as txn:
                for i in range(1000):
                    self.assertTrue(txn.insert(i.to_bytes(8, "big"), i * i))
                self.assertFalse(txn.insert(bytes(8), 1))
        with vahondrisa.open(self.dir) as store, store.begin() as txn:
            self.assertEqual(list(txn.range()), [(i.to_bytes(8, "big"), i * i) for i in range(1000)])
            self.assertEqual(list(txn.range(batch=2))[500:], list(txn.range((500).to_bytes(8, "big"))))
            self.assertEqual(txn.seek((500).to_bytes(8, "big"))[1], 250000)
            self.assertEqual(txn.next((998).to_bytes(8, "big")), ((999).to_bytes(8, "big"), 998001))
            self.assertIsNone(txn.next((999).to_bytes(8, "big")))
            self.assertEqual(next(iter(txn)), bytes(8))

    def test_a_switch_is_made_where_nothing_is_active(self):
        with vahondrisa.open(self.dir, log_bytes=1 << 20) as store:
            with store.begin() as txn:
                txn[b"a"] = 1
                self.assertFalse(store.switch())
            self.assertTrue(store.switch())
        with vahondrisa.open(self.dir) as store, store.begin() as txn:
            self.assertEqual(txn[b"a"], 1)

    def test_a_larger_cache_reads_no_page_again(self):
        with vahondrisa.open(self.dir, frames=8) as store, store.begin() as txn:
            for i in range(1000):
                txn[b"%0200d" % i] = i
        for options, is_held in (({"cache_bytes": 0}, False), ({}, True), ({"cache_bytes": 1 << 20}, True)):
            with self.subTest(**options), vahondrisa.open(self.dir, frames=8, **options) as store:
                reads = []
                for _ in range(2):
                    with store.begin() as txn:
                        self.assertEqual([txn[b"%0200d" % i] for i in range(1000)], list(range(1000)))
                    reads.append(store.info()["page_reads"])
                self.assertEqual(reads[0] == reads[1], is_held, reads)

    def test_memory_for_a_cache_that_is_not_there(self):
        with vahondrisa.open(self.dir) as store:
            store.write(lambda txn: txn.put(b"a", 7))
        child = self.run_on(NARROW)
        self.assertEqual(child.communicate()[0].split(), [b"none", b"7"])
        self.assertEqual(child.returncode, 0)

    def test_the_recipes_of_callers(self):
        with vahondrisa.open(self.dir) as store, store.begin() as txn:
            # a prefix, and the count of a range
            for i in range(700):
                txn[b"user%d" % i] = i
            self.assertEqual([key for key, _ in itertools.islice(txn.prefix(b"user12"), 3)], [b"user12", b"user120", b"user121"])
            self.assertEqual([sum(1 for _ in txn.prefix(it)) for it in (b"user12", b"user", b"")], [11, 700, 700])

            # two indexes in one store, each by a first byte; and keys that are not unique, by the row at their end
            def with_row(city, row):
                return b"\2" + city + b"\0" + row.to_bytes(8, "big")

            for row, city in enumerate([b"oslo", b"rome", b"oslo", b"oslo"]):
                txn[bytes([1, ord("a") + row])] = row
                txn[with_row(city, row)] = row
            self.assertEqual([row for _, row in txn.range(with_row(b"oslo", 0), with_row(b"oslo", 2**64 - 1))], [0, 2, 3])
            self.assertEqual(sum(1 for _ in txn.prefix(b"\1")), 4)

    def test_an_exception_rolls_back(self):
        with vahondrisa.open(self.dir) as store:
            with self.assertRaises(ZeroDivisionError):
                with store.begin() as txn:
                    txn[b"a"] = 1
                    1 / 0
            with store.begin() as txn:
                self.assertNotIn(b"a", txn)
                self.assertEqual(store.info()["active"], 1)

    def test_refusals(self):
        with vahondrisa.open(self.dir) as store:
            for path in (self.dir, os.path.join(self.dir, os.curdir)):
                with self.assertRaisesRegex(vahondrisa.Locked, f"^{path}: the store is open in this process already$"):
                    vahondrisa.open(path)
            with self.run_on(SECOND) as run:
                self.assertEqual(run.stdout.read().decode().rstrip(), f"{self.dir}: the store is open elsewhere")
            txn = store.begin()
            for key in (b"", bytes(256)):
                self.assertRaises(ValueError, txn.insert, key, 1)
                for call in (txn.get, txn.delete, txn.seek, txn.next):
                    self.assertRaises(ValueError, call, key)
            for call in (lambda key: list(txn.range(key)), lambda key: list(txn.range(b"a", key)), lambda key: list(txn[: key + b"a"])):
                self.assertRaises(ValueError, call, bytes(256))
            self.assertRaises(ValueError, txn.insert, b"a", 2**64)
            self.assertRaises(ValueError, txn.insert, b"a", -1)
            self.assertRaises(TypeError, txn.insert, "a", 1)
            self.assertRaises(KeyError, txn.__getitem__, b"a")
            self.assertRaises(KeyError, txn.__delitem__, b"a")
            txn[b"a"] = 1
            self.assertFalse(txn.insert(b"a", 2))
            younger = store.begin()
            self.assertRaises(vahondrisa.GiveWay, younger.get, b"a")
            self.assertRaises(vahondrisa.GiveWay, younger.commit)
            txn.commit()
            older, younger = store.begin(wait=False), store.begin()
            younger[b"b"] = 1
            self.assertRaises(vahondrisa.Busy, older.get, b"b")
            younger.rollback()
            older.rollback()
            older.rollback()
            self.assertRaises(ValueError, older.get, b"b")
        self.assertRaises(ValueError, store.begin)
        self.assertRaises(ValueError, vahondrisa.open, self.dir, frames=7)
        self.assertRaisesRegex(ValueError, "cache_bytes", vahondrisa.open, self.dir, cache_bytes=1 << 30)
        self.assertRaises(ValueError, vahondrisa.open, "a\0b")
        with self.assertRaises(vahondrisa.Failed) as caught:
            vahondrisa.open("/proc/none/here")
        self.assertIsInstance(caught.exception.__cause__, FileNotFoundError)
        os.mkdir(self.dir + "2")
        with open(self.dir + "2/log", "wb") as file:
            file.write(b"x" * 100)
        self.assertRaises(vahondrisa.NotAStore, vahondrisa.open, self.dir + "2")

    def test_a_library_that_is_none_is_told(self):
        for library, words in (("libc.so.6", b"is of another release than this package: it has no vah_open"), ("/none/such.so", b"ImportError: the library cannot be loaded: /none/such.so")):
            environment = dict(os.environ, PYTHONPATH=os.pathsep.join(filter(None, sys.path)), VAHONDRISA_LIBRARY=library)
            ran = subprocess.run([sys.executable, "-c", "import vahondrisa"], env=environment, stderr=subprocess.PIPE)
            self.assertEqual(ran.returncode, 1)
            self.assertIn(words, ran.stderr)

    def test_a_child_is_refused_and_does_no_harm(self):
        with vahondrisa.open(self.dir) as store:
            txn = store.begin()
            txn[b"a"] = 1
            child = os.fork()
            if not child:
                codes = []
                for call in (lambda: txn.get(b"a"), txn.commit, store.begin, store.flush, store.close):
                    try:
                        call()
                    except vahondrisa.Error as it:
                        codes.append(it.code)
                os._exit(codes != [106] * 5)
            self.assertEqual(os.waitpid(child, 0)[1], 0)
            txn[b"b"] = 2
            txn.commit()
            with store.begin() as txn:
                self.assertEqual(list(txn.range()), [(b"a", 1), (b"b", 2)])

    def test_a_close_rolls_back_what_is_active(self):
        with vahondrisa.open(self.dir) as store:
            left = store.begin()
            left[b"a"] = 1
        self.assertRaises(ValueError, left.get, b"a")
        del left
        with vahondrisa.open(self.dir) as store, store.begin() as txn:
            self.assertNotIn(b"a", txn)

    def test_threads(self):
        with vahondrisa.open(self.dir) as store:
            store.write(lambda txn: txn.insert(b"n", 0))

            def one(txn):
                txn[b"n"] += 1

            self.assertEqual(together(*[lambda: [store.write(one) for _ in range(20)]] * 3), [None] * 3)
            with store.begin() as txn:
                self.assertEqual(txn[b"n"], 60)

    def test_signals_do_no_harm(self):
        fired = []
        before = signal.signal(signal.SIGALRM, lambda *_: fired.append(1))
        signal.setitimer(signal.ITIMER_REAL, 0.0005, 0.0005)
        try:
            with vahondrisa.open(self.dir) as store:
                for i in range(50):
                    store.write(lambda txn: txn.insert(str(i).encode(), i))
        finally:
            signal.setitimer(signal.ITIMER_REAL, 0)
            signal.signal(signal.SIGALRM, before)
        self.assertTrue(fired)

    def test_exceptions_of_signals_leave_each_block_whole(self):
        with self.run_on(INTERRUPTED, stderr=subprocess.PIPE) as run:
            out, err = run.communicate()
        self.assertEqual((run.returncode, err), (0, b""))  # and none of them is lost
        self.assertTrue(out.strip().isdigit())
        found = self.turns()
        self.assertTrue(found and all(len(keys) == 10 for keys in found.values()))

    def test_a_full_disk_is_told_with_its_cause(self):
        text = "import resource; resource.setrlimit(resource.RLIMIT_FSIZE, (100000, resource.RLIM_INFINITY))\n"
        text += COMMITS.replace("store.write(", "try: store.write(").replace("print(", "except vahondrisa.Failed as it: print(it.__cause__.errno); break\n    print(")
        run = self.run_on(text)
        lines = run.stdout.read().split()
        run.stdout.close()
        self.assertEqual(run.wait(), 0)
        self.assertEqual(int(lines[-1]), 27)
        last = int(lines[-2])
        found = self.turns()
        self.assertTrue(all(len(keys) == 10 for keys in found.values()))
        self.assertLessEqual(set(range(last + 1)), set(found))

    def test_the_error_of_a_rollback_does_not_hide_the_first(self):
        with self.run_on(FULL, stderr=subprocess.PIPE) as run:
            out, err = run.communicate(timeout=200)
        self.assertEqual((out.decode().split(), run.returncode), (["8", "own"] * 2, 0), err)

    def test_a_kill_keeps_what_was_committed(self):
        for after in (1, 7, 30):
            self.dir = os.path.join(self.room.name, f"killed{after}")
            run = self.run_on(COMMITS)
            for line in run.stdout:
                last = int(line)
                if last >= after:
                    break
            run.kill()
            last = max([last, *map(int, run.stdout.read().split())])
            run.wait()
            run.stdout.close()
            found = self.turns()
            self.assertTrue(all(len(keys) == 10 for keys in found.values()))
            self.assertLessEqual(set(range(last + 1)), set(found))
            self.assertIn(len(found), (last + 1, last + 2))


if __name__ == "__main__":
    unittest.main()
