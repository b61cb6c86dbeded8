"""Savepoints of a transaction."""
import random
import subprocess
import threading
import unittest

import vahondrisa
from support import Case, together

# An exception comes out of a signal's handler somewhere in each turn, which is a part of a transaction: it is there whole, or not at all.
INTERRUPTED = """
import signal, sys, vahondrisa
class Stop(Exception): pass
def stop(*_): raise Stop
signal.signal(signal.SIGALRM, stop)
store = vahondrisa.open(sys.argv[1])
turn, stops = 0, 0
while stops < 150:
    with store.begin() as txn:
        for _ in range(10):
            try:
                signal.setitimer(signal.ITIMER_REAL, 0.0002 + (stops * 37 % 100) * 0.00002)
                for turn in range(turn + 1, turn + 1000):
                    with txn.savepoint():
                        for j in range(10):
                            txn.insert(b"%d.%d" % (turn, j), turn)
            except Stop:
                stops += 1
            signal.setitimer(signal.ITIMER_REAL, 0)
print(turn)
"""


class Own(Exception):
    pass


class Savepoints(Case):
    def setUp(self):
        super().setUp()
        self.store = vahondrisa.open(self.dir)

    def tearDown(self):
        self.store.close()
        super().tearDown()

    def test_beside_a_dict(self):
        chance, model = random.Random(11), {}
        texts, notes = self.store.blob("texts"), {}

        def turn(depth):
            """Changes within a block, some of which are blocks again, and some of these end by an exception."""
            nonlocal model, notes
            before = dict(model), dict(notes)
            try:
                with txn.savepoint():
                    for _ in range(chance.randrange(12)):
                        word, at = chance.randrange(6), b"%d" % chance.randrange(50)
                        if word < 2:
                            txn[at] = model[at] = chance.randrange(3)
                        elif word == 2:
                            self.assertEqual(txn.delete(at), model.pop(at, None) is not None)
                        elif word == 3:
                            texts.within(txn)[at] = notes[at] = at * chance.randrange(400)
                        elif depth < 4:
                            turn(depth + 1)
                    if chance.randrange(2):
                        raise Own
            except Own:
                model, notes = before
            own = lambda: {key: rid for key, rid in txn.range(b" ")}
            self.assertEqual((own(), dict(texts.within(txn))), (model, notes))

        for _ in range(40):
            before = dict(model), dict(notes)
            with self.store.begin() as txn:
                turn(0)
                turn(0)
                if chance.randrange(3) == 0:
                    txn.rollback()
                    model, notes = before
        self.store.close()
        self.store = vahondrisa.open(self.dir)
        with self.store.begin() as txn:
            self.assertEqual({key: rid for key, rid in txn.range(b" ")}, model)

    def test_an_exception_takes_back_what_was_done_within(self):
        for kind in (Own, KeyError, KeyboardInterrupt, SystemExit, GeneratorExit):
            with self.store.begin() as txn:
                txn[b"a"] = 1
                with self.assertRaises(kind), txn.savepoint() as outer:
                    txn[b"a"] = 2
                    with txn.savepoint():
                        txn[b"b"] = 3
                    self.assertEqual(dict(txn), {b"a": 2, b"b": 3})
                    raise kind
                self.assertEqual(dict(txn), {b"a": 1})
                txn[b"c"] = 4
                self.assertRaisesRegex(ValueError, "^the savepoint has ended$", outer.roll_back)
                txn.rollback()

    def test_returns_by_hand(self):
        with self.store.begin() as txn:
            first = txn.savepoint()
            txn[b"a"] = 1
            second = txn.savepoint("second")
            txn[b"b"] = 2
            self.assertEqual((first.name, second.name), (None, "second"))
            self.assertRegex(repr(second), "^<vahondrisa.Savepoint 'second' at 1 changes of <vahondrisa.Transaction of .*, active>>$")
            for _ in range(3):  # it stays
                second.roll_back()
                self.assertEqual(dict(txn), {b"a": 1})
                txn[b"b"] = 2
            first.roll_back()
            self.assertEqual(dict(txn), {})
            txn.update({b"c": 3, b"d": 4})
            self.assertRaisesRegex(ValueError, "^the savepoint has ended$", second.roll_back)  # its number would be that of other changes now
            self.assertRaises(KeyError, txn.roll_to, "second")
            self.assertEqual(dict(txn), {b"c": 3, b"d": 4})
            # a block whose savepoint has ended takes nothing back
            with self.assertRaises(Own), txn.savepoint():
                first.roll_back()
                txn[b"e"] = 5
                raise Own
            self.assertEqual(dict(txn), {b"e": 5})
            # and out of their order
            outer, inner = txn.savepoint(), txn.savepoint()
            txn[b"f"] = 6
            outer.__exit__(None, None, None)
            inner.__exit__(Own, Own(), None)
            self.assertEqual(dict(txn), {b"e": 5})

    def test_names(self):
        with self.store.begin() as txn:
            for rid in range(3):
                with txn.savepoint("same"):
                    txn[b"a"] = rid
                    with txn.savepoint("same"):
                        txn[b"b"] = rid
                        txn.roll_to("same")  # the last of the name
                        self.assertEqual(dict(txn), {b"a": rid})
                    txn.roll_to("same")
                    self.assertNotIn((b"a", rid), txn.items())
                    txn[b"a"] = rid
            self.assertRaises(KeyError, txn.roll_to, "same")
            for wrong in (5, b"a", [], object()):
                self.assertRaisesRegex(TypeError, f"^name must be a str, or None, not {type(wrong).__name__}$", txn.savepoint, wrong)
            self.assertRaises(KeyError, txn.roll_to, None)

    def test_one_that_gives_way_returns_to_nothing(self):
        older, younger = self.store.begin(), self.store.begin()
        older[b"k"] = 1
        younger[b"m"] = 1
        with self.assertRaises(vahondrisa.GiveWay), younger.savepoint("here") as save:
            younger[b"n"] = 2
            try:
                younger.get(b"k")
            except vahondrisa.GiveWay:
                self.assertRaises(vahondrisa.GiveWay, save.roll_back)
                self.assertRaises(vahondrisa.GiveWay, younger.roll_to, "here")
                raise
        self.assertRaises(vahondrisa.GiveWay, younger.get, b"m")  # it was not lifted
        older.rollback()
        younger.again()
        self.assertEqual(dict(younger), {})
        self.assertRaisesRegex(ValueError, "^the savepoint has ended$", save.roll_back)
        younger.rollback()

    def test_a_write_that_gives_way_is_made_again_whole(self):
        has_key, is_told, runs = threading.Event(), threading.Event(), []

        def older():
            with self.store.begin() as txn:
                txn[b"k"] = 1
                has_key.set()
                is_told.wait()

        def body(txn):
            runs.append(dict(txn.range(b"n", b"z")))
            txn[b"n"] = 1
            try:
                with txn.savepoint():
                    txn[b"o"] = 2
                    txn[b"k"] = txn.get(b"k", 0) + 1
            except vahondrisa.GiveWay:
                is_told.set()
                raise

        def younger():
            has_key.wait()
            self.store.write(body)

        self.assertEqual(together(older, younger), [None] * 2)
        self.assertEqual((runs, self.store.items()), ([{}, {}], [(b"k", 2), (b"n", 1), (b"o", 2)]))

    def test_one_of_a_transaction_that_has_ended(self):
        for ends in (lambda: txn.commit(), lambda: txn.rollback(), lambda: self.store.close()):
            txn = self.store.begin()
            save = txn.savepoint("here")
            with self.assertRaises(Own), txn.savepoint():
                txn[b"a"] = 1
                ends()
                raise Own
            words = "^the transaction has ended$" if not self.store.closed else "^the store is closed$"
            for call in (save.roll_back, txn.savepoint, lambda: txn.roll_to("here")):
                self.assertRaisesRegex(ValueError, words, call)
            save.__exit__(None, None, None)
            save.__exit__(Own, Own(), None)
            del save, txn

    def test_threads_share_a_transaction(self):
        with self.store.begin() as txn:
            txn[b"a"] = 1

            def work():
                for _ in range(30):
                    try:
                        with txn.savepoint():
                            txn[b"b"] = 2
                            raise Own
                    except (Own, vahondrisa.Error):  # refused while another thread takes its changes back
                        pass

            self.assertEqual(together(work, work, work), [None] * 3)
            with txn.savepoint() as save:
                save.roll_back()
            self.assertEqual(txn[b"a"], 1)

    def test_exceptions_of_signals_leave_each_part_whole(self):
        with self.run_on_closed(INTERRUPTED) as run:
            out, err = run.communicate()
        self.assertEqual((run.returncode, err), (0, b""))
        self.assertTrue(out.strip().isdigit())
        found = self.turns()
        self.assertTrue(found and all(len(keys) == 10 for keys in found.values()))

    def run_on_closed(self, text):
        self.store.close()
        return self.run_on(text, stderr=subprocess.PIPE)


if __name__ == "__main__":
    unittest.main()
