"""Copies of a store in use, and openings that only read."""
import errno
import hashlib
import os
import pickle
import shutil
import signal
import threading
import time
import unittest

import vahondrisa
from support import Case, together


# A log of the first format, in which the key a was inserted and committed.
FIRST_LOG = bytes.fromhex(
    "014152494553494d3100001000000000000000000000000000000000000000010000004c0000002b01000000000000000100000000000000000000000000000000000000010161"
    "000000000000000700000021080000000000000001000000000000002400000000000000000000000000"
)


class Copies(Case):
    def test_copies_beside_threads_that_commit(self):
        with vahondrisa.open(self.dir, frames=16, log_bytes=300_000) as store:
            acked, is_over = [0] * 4, threading.Event()

            def load(i):
                while not is_over.is_set():
                    n = acked[i] + 1
                    store.write(lambda txn: [txn.put(b"%d.%d.%d" % (i, n, part), n) for part in range(3)])
                    acked[i] = n

            def copies():
                try:
                    while min(acked) < 3:
                        store.info()
                    for turn in range(8):
                        before = list(acked)
                        store.copy(os.path.join(self.room.name, f"copy{turn}"))
                        self.is_whole(f"copy{turn}", before)
                finally:
                    is_over.set()

            self.assertEqual(together(*(lambda i=i: load(i) for i in range(4)), copies), [None] * 5)

    def is_whole(self, name, acked):
        """A copy has each transaction that was acknowledged, whole, and of the others those that came one after another."""
        with vahondrisa.open(os.path.join(self.room.name, name)) as copy, copy.begin() as txn:
            for i, count in enumerate(acked):
                found = {}
                for key, rid in txn.prefix(b"%d." % i):
                    found.setdefault(rid, []).append(key)
                self.assertTrue(all(len(keys) == 3 for keys in found.values()))
                self.assertEqual(set(found), set(range(1, len(found) + 1)))
                self.assertGreaterEqual(len(found), count)

    def test_a_copy_while_the_store_leaves_the_first_format(self):
        for turn in range(20):
            folder, to = os.path.join(self.room.name, f"first{turn}"), os.path.join(self.room.name, f"copy{turn}")
            os.mkdir(folder)
            for name, text in (("log", FIRST_LOG), ("pages", b"")):
                with open(os.path.join(folder, name), "wb") as file:
                    file.write(text)
            with vahondrisa.open(folder) as store:

                def upgrade():
                    for n in range(turn):
                        store.write(lambda txn: txn.put(b"b%d" % n, n))
                    store.switch()
                    store.write(lambda txn: txn.put(b"c", 3))

                self.assertEqual(together(upgrade, lambda: store.copy(to)), [None] * 2)
            self.assertGreater(os.path.getsize(os.path.join(folder, "log2")), 0)
            with vahondrisa.open(to) as copy, copy.begin() as txn:
                found = dict(txn.range())
            each = [(b"a", 7), *((b"b%d" % n, n) for n in range(turn)), (b"c", 3)]
            self.assertEqual(found, dict(each[: max(1, len(found))]))

    def test_the_interpreter_goes_on(self):
        with vahondrisa.open(self.dir) as store:
            for turn in range(20):
                store.write(lambda txn: [txn.put(b"%d.%d" % (turn, i) + b"x" * 200, i) for i in range(1000)])
            store.switch()
            copies = 0

            def work():
                while copying.is_alive():
                    turns.append(store.get(b"none"))

            while True:  # until so much was done beside one that it was not all before and after
                turns, to = [], os.path.join(self.room.name, f"copy{copies}")
                copying = threading.Thread(target=store.copy, args=(to,))
                copying.start()
                work()
                copies += 1
                with vahondrisa.open(to) as copy, copy.begin() as txn:
                    self.assertEqual(len(txn), 20_000)
                if len(turns) > 5:
                    break
                self.assertLess(copies, 50)

    def test_folders(self):
        with vahondrisa.open(self.dir) as store:
            store.write(lambda txn: txn.put(b"a", 1))
            store.copy(self.dir + "2/deep")
            store.copy(os.fsencode(self.dir) + b"3")
            os.mkdir(self.dir + "4")
            store.copy(self.dir + "4")
            for name in ("2/deep", "3", "4"):
                with vahondrisa.open(self.dir + name) as copy:
                    self.assertEqual(copy.get(b"a"), 1)
            for folder, number in ((self.dir, errno.ENOTEMPTY), (self.dir + "4", errno.ENOTEMPTY), ("/proc/none/here", errno.ENOENT)):
                with self.assertRaises(OSError) as caught:
                    store.copy(folder)
                told = caught.exception
                self.assertEqual((type(told), told.errno, told.filename, told.strerror), (vahondrisa.NotCopied, number, folder, os.strerror(number)))
                self.assertIn(folder, str(told))
                self.assertEqual(str(pickle.loads(pickle.dumps(told))), str(told))
            self.assertRaisesRegex(ValueError, "^path must not have a byte 0$", store.copy, "a\0b")
            self.assertRaises(TypeError, store.copy, 5)
            self.assertEqual(store.get(b"a"), 1)  # it goes on
            os.mkdir(self.dir + "5")
            with open(self.dir + "5/log.part", "wb"):
                pass
            self.assertRaisesRegex(vahondrisa.NotAStore, "a copy or a load into it was not finished", vahondrisa.open, self.dir + "5")
        self.assertRaisesRegex(ValueError, "^the store is closed$", store.copy, self.dir + "6")
        self.assertFalse(os.path.exists(self.dir + "6"))

    def test_a_copy_tells_its_progress_and_can_be_given_up(self):
        with vahondrisa.open(self.dir) as store:
            store.write(lambda txn: [txn.put(b"%d" % i + b"x" * 200, i) for i in range(5000)])
            to, told = self.dir + "-copy", []

            def stop(count):
                told.append(count)
                if len(told) == 2:
                    raise LookupError

            self.assertRaises(LookupError, store.copy, to, progress=stop)
            self.assertEqual((len(told), os.listdir(to)), (2, []))
            self.assertRaises(TypeError, store.copy, to, progress=5)
            self.assertEqual(os.listdir(to), [])
            told.clear()
            store.copy(to, progress=lambda count: told.append((count, store.get(b"none"))))  # which goes on
            self.assertTrue(len(told) > 4 and told == sorted(set(told), key=lambda it: it[0]), told)
            with vahondrisa.open(to) as copy, copy.begin() as txn:
                self.assertEqual(len(txn), 5000)

    @unittest.skipUnless(threading.current_thread() is threading.main_thread(), "signals come to the main thread alone")
    def test_ctrl_c_ends_a_copy(self):
        handler = signal.signal(signal.SIGINT, signal.default_int_handler)
        self.addCleanup(signal.signal, signal.SIGINT, handler)
        main, to, given_up = threading.main_thread().ident, self.dir + "-copy", 0
        with vahondrisa.open(self.dir) as store:
            store.write(lambda txn: [txn.put(b"%d" % i + b"x" * 200, i) for i in range(20_000)])

            def interrupt():
                while not os.path.exists(to + "/pages.part"):
                    store.info()
                signal.pthread_kill(main, signal.SIGINT)

            for _ in range(20):
                beside = threading.Thread(target=interrupt)
                with self.assertRaises(KeyboardInterrupt):
                    beside.start()
                    store.copy(to)
                    time.sleep(5)  # the copy was made before it came
                beside.join()
                given_up += os.listdir(to) == []
                shutil.rmtree(to)
            self.assertGreater(given_up, 5)

    def test_a_close_gives_a_copy_up(self):
        for turn in range(10):
            store, to = vahondrisa.open(self.dir), os.path.join(self.room.name, "copy")
            told = together(lambda: store.copy(to), store.close)
            self.assertIsNone(told[1])
            self.assertIn((type(told[0]), str(told[0])), ((type(None), "None"), (ValueError, "the store is closed")))
            if os.path.exists(to + "/log"):
                vahondrisa.open(to).close()
            for name in os.listdir(to) if os.path.exists(to) else ():
                os.remove(os.path.join(to, name))


class Looks(Case):
    def sums(self):
        """The bytes of the files."""
        sums = {}
        for name in os.listdir(self.dir):
            with open(os.path.join(self.dir, name), "rb") as file:
                sums[name] = hashlib.sha256(file.read()).hexdigest()
        return sums

    def test_several_look_at_once_and_nothing_is_changed(self):
        with vahondrisa.open(self.dir) as store:
            store.write(lambda txn: txn.update({b"a": 1, b"b": 2}))
            self.assertRaises(vahondrisa.Locked, vahondrisa.open, self.dir, read_only=True)
        before = self.sums()
        with vahondrisa.open(self.dir, read_only=True) as one, vahondrisa.open(self.dir, read_only=True) as other:
            self.assertRaises(vahondrisa.Locked, vahondrisa.open, self.dir)
            with one.begin() as txn, other.begin() as others:
                self.assertEqual((dict(txn), dict(others)), ({b"a": 1, b"b": 2},) * 2)
                for change in (lambda: txn.put(b"a", 3), lambda: txn.insert(b"c", 3), lambda: txn.delete(b"a"), txn.clear, lambda: txn.pop(b"a")):
                    with self.assertRaises(OSError) as caught:
                        change()
                    self.assertEqual((type(caught.exception), caught.exception.code, caught.exception.errno), (vahondrisa.ReadOnly, 110, errno.EROFS))
                self.assertEqual(txn[b"a"], 1)  # it goes on
            for call in (one.checkpoint, one.switch, one.flush, lambda: one.index("new"), lambda: one.write(lambda txn: txn.put(b"c", 3))):
                self.assertRaises(vahondrisa.ReadOnly, call)
            self.assertEqual((one.get(b"c"), one.info()["active"], one.indexes()), (None, 0, []))
        self.assertEqual(self.sums(), before)

    def test_no_store_is_made(self):
        for folder in (self.dir, self.dir + "/deep"):
            with self.assertRaises(FileNotFoundError) as caught:
                vahondrisa.open(folder, read_only=True)
            told = caught.exception
            self.assertEqual((type(told), told.errno, told.filename, str(told)), (vahondrisa.Missing, errno.ENOENT, folder, f"{folder}: there is no such folder"))
            self.assertIsInstance(told, vahondrisa.Failed)
            self.assertEqual(str(pickle.loads(pickle.dumps(told))), str(told))
        self.assertFalse(os.path.exists(self.dir))
        os.mkdir(self.dir)
        self.assertRaisesRegex(vahondrisa.NotAStore, "there is no `log` in it", vahondrisa.open, self.dir, read_only=True)
        self.assertEqual(os.listdir(self.dir), [])


if __name__ == "__main__":
    unittest.main()
