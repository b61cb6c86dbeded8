"""Each call of the device fails in turn, and each after it; then the store is opened again. The library is one that was built for that, so
`make -C callers test` runs this."""
import errno
import itertools
import os
import tempfile
import unittest

import vahondrisa

TURNS, KEYS = 6, 12


def key(turn: int, k: int) -> bytes:
    """Keys of 220 bytes split pages soon."""
    return bytes([k * 37 % 256, turn, k]).ljust(220, b"\0")


def life(folder: str, acked: set) -> None:
    """Each turn is a transaction; turn 2 is rolled back, and each returns to a savepoint. `acked` has those that were committed."""
    with vahondrisa.open(folder, frames=8, redo_bytes=200_000) as store:
        for turn in range(TURNS):
            with store.begin() as txn:
                for k in range(KEYS):
                    txn[key(turn, k)] = 99
                for k in range(KEYS):
                    txn[key(turn, k)] = turn
                try:
                    with txn.savepoint():
                        for k in range(KEYS):
                            del txn[key(turn, k)]
                            txn[key(99, k)] = 99
                        raise LookupError
                except LookupError:
                    pass
                if turn == 2:
                    txn.rollback()
                    continue
            acked.add(turn)
            if turn == 1:
                store.checkpoint()
            if turn == 3:
                store.switch()


@unittest.skipUnless(os.environ.get("VAHONDRISA_FAILS"), "over a library whose device fails: make -C callers test")
class EveryCall(unittest.TestCase):
    def test_every_call_fails_in_turn(self):
        for n in itertools.count(1):
            with self.subTest(n=n), tempfile.TemporaryDirectory() as room:
                folder, acked, failed = os.path.join(room, "store"), set(), None
                os.environ["VAH_FAIL_AT"] = str(n)
                try:
                    life(folder, acked)
                except vahondrisa.Failed as it:
                    failed = it
                finally:
                    del os.environ["VAH_FAIL_AT"]
                if failed:
                    self.assertEqual(failed.__cause__.errno, errno.EIO)
                with vahondrisa.open(folder) as store, store.begin() as txn:
                    found = {it: [rid for key, rid in txn.range() if rid == it] for it in (*range(TURNS), 99)}
                self.assertTrue(all(len(it) in (0, KEYS) for it in found.values()), found)
                self.assertTrue(all(found[it] for it in acked), (found, acked))
                self.assertFalse(found[2] or found[99])
            if not failed:
                break
        self.assertGreater(n, 20)

    def test_every_call_of_a_copy_fails_in_turn(self):
        with tempfile.TemporaryDirectory() as room, vahondrisa.open(os.path.join(room, "store")) as store:
            for n in itertools.count(1):
                store.write(lambda txn: txn.put(b"a", n))
                with self.subTest(n=n):
                    to, failed = os.path.join(room, str(n)), None
                    os.environ["VAH_COPY_FAIL_AT"] = str(n)
                    try:
                        store.copy(to)
                    except vahondrisa.NotCopied as it:
                        failed = it
                    finally:
                        del os.environ["VAH_COPY_FAIL_AT"]
                    if failed:
                        self.assertEqual((failed.errno, failed.__cause__.errno, failed.filename), (errno.EIO, errno.EIO, to))
                    if not os.path.isdir(to) or not os.listdir(to):
                        self.assertTrue(failed)
                    elif os.path.exists(to + "/log.part"):
                        self.assertRaisesRegex(vahondrisa.NotAStore, "a copy or a load into it was not finished", vahondrisa.open, to)
                    else:
                        with vahondrisa.open(to) as copy:
                            self.assertEqual(copy.get(b"a"), n)
                if not failed:
                    break
            self.assertGreater(n, 12)

    def test_a_return_that_finds_no_memory_is_ended_by_the_next_call(self):
        for refused in range(1, 12):
            with self.subTest(refused=refused), tempfile.TemporaryDirectory() as room:
                os.environ["VAH_REFUSE_CONTINUE"] = str(refused)
                try:
                    store = vahondrisa.open(os.path.join(room, "store"))
                finally:
                    del os.environ["VAH_REFUSE_CONTINUE"]
                with store:
                    with store.begin() as txn:
                        txn[b"a"] = 1
                        with self.assertRaises(ZeroDivisionError), txn.savepoint() as save:
                            txn[b"a"] = 2
                            txn.update({b"%d" % i: i for i in range(8)})
                            1 / 0
                        self.assertEqual(dict(txn), {b"a": 1})
                        with txn.savepoint() as save:
                            txn[b"b"] = 2
                            try:
                                save.roll_back()
                            except MemoryError:
                                self.assertEqual(refused, 11)
                    self.assertEqual(store.items(), [(b"a", 1)])

    def test_a_name_that_is_refused_half_way_is_none(self):
        for refused in (1, 2, 3):  # of its three entries
            with self.subTest(refused=refused), tempfile.TemporaryDirectory() as room:
                os.environ["VAH_REFUSE_INSERT"] = str(refused)
                try:
                    store = vahondrisa.open(os.path.join(room, "store"))
                finally:
                    del os.environ["VAH_REFUSE_INSERT"]
                with store:
                    self.assertRaises(MemoryError, store.index, "half")
                    self.assertEqual(store.indexes(), [])
                    with store.begin() as txn:
                        self.assertEqual(len(txn), 0)
                    store.blob("half")  # the name is free
                    self.assertEqual(store.blobs(), ["half"])


if __name__ == "__main__":
    unittest.main()
