"""Threads, waits and interrupts."""
import os
import signal
import subprocess
import threading
import time
import unittest

import vahondrisa
from support import Case, together

# Four threads load, each batch of ten keys a transaction, and say which they were told to be kept. A Ctrl-C leaves the block in the main thread.
LOAD = """
import itertools, sys, threading, vahondrisa
kept, told = {}, []
def load(thread):
    for turn in itertools.count(thread, 4):
        try:
            store.write(lambda txn: [txn.put(b"%d.%d" % (j, turn), turn) for j in range(10)])
        except ValueError as it:
            told.append(str(it))
            return
        kept[turn] = 1
threads = [threading.Thread(target=load, args=(it,)) for it in range(4)]
try:
    with vahondrisa.open(sys.argv[1]) as store:
        for it in threads:
            it.start()
        print("begun", flush=True)
        while True:  # (a join without a limit may miss a signal that comes as it begins)
            threads[0].join(0.05)
except KeyboardInterrupt:
    for it in threads:
        it.join()
    print(store.closed, sorted(set(told)), sorted(kept))
    sys.exit(7)
"""

# The main thread waits for what another one holds for ever.
WAITS = """
import sys, threading, vahondrisa
store, held = vahondrisa.open(sys.argv[1]), threading.Event()
older = store.begin()
def hold():
    HOLD
    held.set()
    while True:
        LATER
threading.Thread(target=hold, daemon=True).start()
held.wait()
print("held", flush=True)
WAIT
"""
IDLE = "threading.Event().wait()"
YOUNGER = "younger = store.begin(); younger[b'b'] = 1"

# Daemon threads are at work when the interpreter ends.
DAEMONS = """
import sys, threading, time, vahondrisa
store = vahondrisa.open(sys.argv[1])
def load(thread):
    turn = thread
    while True:
        store.write(lambda txn: [txn.put(b"%d.%d" % (j, turn), turn) for j in range(10)])
        turn += 4
for it in range(4):
    threading.Thread(target=load, args=(it,), daemon=True).start()
time.sleep(0.2)
"""


class Threads(Case):
    def test_a_thousand_threads(self):
        with vahondrisa.open(self.dir) as store:
            store.write(lambda txn: txn.put(b"n", 0))

            def body(i):
                def one(txn):
                    txn[b"n"] += 1
                    txn[b"%d" % i] = i

                return lambda: store.write(one)

            self.assertEqual(set(together(*map(body, range(1000)))), {None})
            with store.begin() as txn:
                self.assertEqual((txn[b"n"], len(txn)), (1000, 1001))
            self.assertEqual(store.info()["active"], 0)

    def test_one_transaction_in_many_threads(self):
        with vahondrisa.open(self.dir) as store:
            with store.begin() as txn:

                def body(i):
                    for j in range(100):
                        txn[b"%d.%d" % (i, j)] = j
                        if txn[b"%d.%d" % (i, j)] != j:
                            raise AssertionError

                self.assertEqual(set(together(*(lambda i=i: body(i) for i in range(8)))), {None})
                found, shared = [], txn.range(batch=5)
                together(*(lambda: found.extend(shared) for _ in range(4)))
                self.assertEqual(len(found), 800)
                self.assertEqual(sorted(found), list(txn.items()))
            # one thread ends it while others are within calls of it
            for _ in range(20):
                txn = store.begin()
                raised = together(*[lambda: [txn.put(b"%d" % i, i) for i in range(200)]] * 3, lambda: (time.sleep(0.001), txn.commit()))
                self.assertIsNone(raised.pop())
                self.assertTrue(all(it is None or str(it) == "the transaction has ended" for it in raised), raised)
                self.assertRaisesRegex(ValueError, "^the transaction has ended$", txn.get, b"1")
                txn.rollback()

    def test_a_close_beside_threads_at_work(self):
        for turn in range(10):
            store, kept = vahondrisa.open(self.dir), []

            def body(i):
                for j in range(10**9):
                    key = b"%d.%d.%d" % (turn, i, j)
                    store.write(lambda txn: txn.put(key, j))
                    kept.append(key)

            def close():
                time.sleep(0.03 + 0.005 * turn)
                while not kept:
                    time.sleep(0.001)
                store.close()

            raised = together(*(lambda i=i: body(i) for i in range(16)), close)
            self.assertIsNone(raised.pop())
            self.assertEqual([(type(it), str(it)) for it in raised], [(ValueError, "the store is closed")] * 16)
            with vahondrisa.open(self.dir) as store, store.begin() as txn:
                self.assertTrue(kept and all(it in txn for it in kept))

    def test_a_close_ends_the_waits_of_others(self):
        store = vahondrisa.open(self.dir)
        older, younger = store.begin(), store.begin()
        younger[b"a"] = 1

        begun, is_closed = threading.Event(), threading.Event()

        def within():
            with store.begin():
                begun.set()
                is_closed.wait()

        def close():
            begun.wait()
            while store.info()["waits"] < 2:
                time.sleep(0.01)
            store.close()
            store.close()
            is_closed.set()

        raised = together(lambda: older.get(b"a"), lambda: older.range(b"a").__next__(), within, close)
        self.assertIsNone(raised.pop())
        self.assertEqual([(type(it), str(it)) for it in raised], [(ValueError, "the store is closed")] * 3)
        self.assertRaisesRegex(ValueError, "^the store is closed$", younger.commit)
        self.assertTrue(store.closed)
        with vahondrisa.open(self.dir) as store:
            self.assertIsNone(store.get(b"a"))

    def test_an_end_beside_a_transaction_that_is_about_to_begin_again(self):
        def told_beside(end, count):
            """What a call of the transaction was told at that moment."""
            has_ended, told = threading.Event(), []
            with vahondrisa.open(self.dir) as store:
                older, younger = store.begin(), store.begin()
                younger.update({b"%d" % i: i for i in range(count)})
                older[b"a"] = 1
                self.assertRaises(vahondrisa.GiveWay, younger.get, b"a")
                older.commit()

                def again():
                    younger.again()
                    if not has_ended.wait(100):
                        younger.commit()  # so that a close that waits for it ends

                def ends():
                    while not told:
                        try:
                            told.append(younger.get(b"a"))  # it has begun again already
                        except vahondrisa.GiveWay:
                            pass
                        except vahondrisa.Error as it:
                            told.append(it.code)
                    end(store, younger)
                    has_ended.set()

                raised = together(again, ends)
                self.assertIsNone(raised[1])
                self.assertIn(type(raised[0]), (type(None), ValueError))
                self.assertRaisesRegex(ValueError, "^the (transaction has ended|store is closed)$", younger.get, b"a")
                self.assertTrue(store.closed or not store.info()["active"])
                self.assertTrue(has_ended.is_set())
            with vahondrisa.open(self.dir) as store:
                self.assertIsNone(store.get(b"1"))
                self.assertTrue(store.write(lambda txn: txn.delete(b"a")))
            return told[0]

        for end in (lambda _, txn: txn.rollback(), lambda store, _: store.close()):
            self.assertIn(4, (told_beside(end, count) for count in (2000, 8000) + (32000,) * 8))  # until it comes in between

    def test_a_close_that_an_interrupt_cuts_off(self):
        def interrupted():
            raise KeyboardInterrupt

        store = vahondrisa.open(self.dir, timeout=float("inf"))  # which is no limit
        with store.begin(timeout=float("inf")) as txn:
            txn[b"a"] = 1
        store._end = interrupted
        self.assertRaises(KeyboardInterrupt, store.close)
        del store._end, txn, store
        vahondrisa.open(self.dir).close()

    def test_a_thread_that_would_wait_for_itself(self):
        with vahondrisa.open(self.dir) as store:
            for body in (
                lambda txn: store.write(lambda it: it.get(b"a")), lambda txn: store.put(b"a", 1), lambda txn: store.__setitem__(b"a", 1),
                lambda txn: store.pop(b"a", None), lambda txn: store.__delitem__(b"a"), lambda txn: store.index("a"),
            ):
                self.assertRaisesRegex(vahondrisa.Deadlock, "a write within a write of the same thread$", store.write, body)
            # another thread's write does not count
            store.write(lambda txn: together(lambda: store.write(lambda it: it.put(b"b", 1))))
            self.assertEqual(store.get(b"b"), 1)
            older, younger = store.begin(), store.begin()
            younger[b"a"] = 1
            self.assertRaises(vahondrisa.Deadlock, older.get, b"a")
            older[b"c"] = 2
            self.assertRaises(vahondrisa.GiveWay, younger.get, b"c")
            self.assertRaises(vahondrisa.Deadlock, younger.again)
            younger.rollback()
            self.assertIsNone(older.get(b"a"))
            # a write beside an older transaction of the same thread
            self.assertRaises(vahondrisa.Deadlock, store.write, lambda txn: txn.put(b"c", 3))
            older.commit()
            self.assertEqual(store.get(b"c"), 2)
            self.assertEqual(store.info()["active"], 0)

    def test_two_threads_that_wait_for_each_other_in_two_stores(self):
        with vahondrisa.open(self.dir) as one, vahondrisa.open(self.dir + "2") as two:
            raised = []
            for timeout in (None, 0.2):
                olds = [it.begin(timeout=timeout) for it in (one, two)]
                meet = threading.Barrier(2)

                def body(mine, other, old):
                    with mine.begin() as young:
                        young[b"a"] = 1
                        meet.wait()
                        old.get(b"a")  # waits for the other thread's

                raised += filter(None, together(lambda: body(one, two, olds[1]), lambda: body(two, one, olds[0])))
                for it in olds:
                    it.rollback()
                self.assertTrue(1 <= len(raised) <= 4 and {type(it) for it in raised} <= {vahondrisa.Deadlock, vahondrisa.Busy}, raised)
            self.assertIn(vahondrisa.Deadlock, map(type, raised))
            self.assertEqual((one.info()["active"], two.info()["active"]), (0, 0))

    def test_a_wait_ends_by_its_limit(self):
        with vahondrisa.open(self.dir, timeout=0.15) as store:
            older, quick, patient = store.begin(), store.begin(timeout=0.03), store.begin(timeout=20)
            held, free = threading.Event(), threading.Event()

            def hold():
                with store.begin() as younger:
                    younger[b"a"] = 1
                    held.set()
                    free.wait()

            thread = threading.Thread(target=hold)
            thread.start()
            held.wait()
            for txn, least in ((older, 0.15), (quick, 0.03)):
                since = time.monotonic()
                self.assertRaises(vahondrisa.Busy, txn.get, b"a")
                self.assertTrue(least <= time.monotonic() - since < 5)
                self.assertIsNone(txn.get(b"b"))  # it goes on
            threading.Timer(0.3, free.set).start()
            self.assertEqual(patient.get(b"a"), 1)
            thread.join()
            for txn in (older, quick, patient):
                txn.commit()
            # the 65th waits, and is told at last
            many = [store.begin() for _ in range(64)]
            with self.assertRaises(vahondrisa.Error) as caught:
                store.begin(wait=False)
            self.assertEqual(caught.exception.code, 12)
            # (in another thread, as this one would wait for itself)
            self.assertIsInstance(together(lambda: store.begin(timeout=0.05))[0], vahondrisa.Busy)
            self.assertRaises(vahondrisa.Deadlock, store.begin)
            for txn in many:
                txn.commit()
            store.begin().commit()

    def test_a_body_that_raises(self):
        with vahondrisa.open(self.dir) as store:
            store.write(lambda txn: txn.put(b"a", 1))

            def body(txn):
                txn[b"a"] = 2
                raise LookupError("sold out")

            self.assertRaisesRegex(LookupError, "^sold out$", store.write, body)

            def ends(txn):
                txn[b"a"] = 3
                txn.rollback()
                return "rolled back"

            self.assertEqual(store.write(ends), "rolled back")
            self.assertEqual(store.get(b"a"), 1)
            self.assertEqual(store.info()["active"], 0)

    def test_a_body_that_hides_its_error_is_made_again(self):
        with vahondrisa.open(self.dir) as store:
            older, runs = store.begin(), []
            older[b"a"] = 1

            def body(txn):
                runs.append(1)
                try:
                    return txn.get(b"a")
                except vahondrisa.Error:
                    older.commit()
                    return "hidden"

            answers = []
            self.assertEqual(together(lambda: answers.append(store.write(body))), [None])
            self.assertEqual((answers, len(runs), store.info()["restarts"]), ([1], 2, 1))
            # but for one that ended the transaction itself
            older = store.begin()
            older[b"a"] = 2

            def gives_up(txn):
                try:
                    txn.get(b"a")
                except vahondrisa.GiveWay:
                    txn.rollback()
                    return "gave up"

            self.assertEqual(together(lambda: answers.append(store.write(gives_up))), [None])
            self.assertEqual(answers.pop(), "gave up")
            older.commit()

    def test_an_interrupt_ends_a_load_of_four_threads(self):
        for turn in range(int(os.environ.get("VAHONDRISA_TURNS", "5"))):
            with self.run_on(LOAD, stderr=subprocess.PIPE) as run:
                self.assertEqual(run.stdout.readline(), b"begun\n")
                time.sleep(0.01 + turn * 37 % 50 * 0.01)
                run.send_signal(signal.SIGINT)
                out, err = run.communicate(timeout=200)
            self.assertEqual((run.returncode, err), (7, b""), (turn, out))
            closed, told, kept = out.decode().split(" ", 1)[0], out.decode().split("[", 1)[1].split("]", 1)[0], out.decode().rsplit("[", 1)[1].rstrip("]\n")
            self.assertEqual((closed, told), ("True", "'the store is closed'"))
            found = self.turns()
            self.assertTrue(all(len(keys) == 10 for keys in found.values()))
            self.assertLessEqual({int(it) for it in kept.split(",") if it}, set(found))

    def test_an_interrupt_ends_each_wait(self):
        for hold, later, wait in (
            (YOUNGER, IDLE, "older.get(b'b')"),
            (YOUNGER, IDLE, "older.put(b'b', 1)"),
            (YOUNGER, IDLE, "next(older.range())"),
            ("many = [store.begin() for _ in range(63)]", IDLE, "older.rollback(); [store.begin() for _ in range(2)]"),
            # who begins again waits for an older one that makes calls all the time
            ("older[b'b'] = 1", "older.get(b'b')", "store.write(lambda txn: txn.get(b'b'))"),
        ):
            text = WAITS.replace("HOLD", hold).replace("LATER", later).replace("WAIT", wait)
            with self.subTest(wait), self.run_on(text, stderr=subprocess.PIPE) as run:
                self.assertEqual(run.stdout.readline(), b"held\n")
                time.sleep(0.2)
                self.assertIsNone(run.poll())
                run.send_signal(signal.SIGINT)
                err = run.communicate(timeout=200)[1]
                self.assertEqual((run.returncode, err.splitlines()[-1]), (-signal.SIGINT, b"KeyboardInterrupt"))

    def test_daemon_threads_at_the_end(self):
        for _ in range(3):
            with self.run_on(DAEMONS, stderr=subprocess.PIPE) as run:
                err = run.communicate(timeout=200)[1]
                self.assertEqual((run.returncode, err), (0, b""))
            self.assertTrue(all(len(keys) == 10 for keys in self.turns().values()))


if __name__ == "__main__":
    unittest.main()
