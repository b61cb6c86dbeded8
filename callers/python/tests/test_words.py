"""The words of a transaction, beside a dict."""
import copy
import pickle
import random
import shutil
import unittest
from array import array

import vahondrisa
from support import Case, together


# ends without a close, and so leaves a log to be read
LEFT_BEHIND = """
import os, sys, vahondrisa
store = vahondrisa.open(sys.argv[1])
store.write(lambda txn: [txn.insert((b"%d" % i).ljust(200), i) for i in range(2000)])
os._exit(0)
"""


class Words(Case):
    def setUp(self):
        super().setUp()
        self.store = vahondrisa.open(self.dir)

    def tearDown(self):
        self.store.close()
        super().tearDown()

    def test_a_transaction_is_as_a_dict(self):
        chance, model = random.Random(7), {}
        key = lambda: b"%d" % chance.randrange(40)
        with self.store.begin() as txn:
            for turn in range(2000):
                at, rid = key(), chance.randrange(1 << 64)
                word = chance.randrange(9)
                if word == 0:
                    txn[at] = model[at] = rid
                elif word == 1:
                    self.assertEqual(txn.put(at, rid), model.get(at))
                    model[at] = rid
                elif word == 2:
                    self.assertEqual(txn.insert(at, rid), at not in model)
                    model.setdefault(at, rid)
                elif word == 3:
                    self.assertEqual(txn.delete(at), model.pop(at, None) is not None)
                elif word == 4:
                    self.assertEqual(txn.pop(at, None), model.pop(at, None))
                elif word == 5:
                    self.assertEqual(txn.setdefault(at, rid), model.setdefault(at, rid))
                elif word == 6:
                    self.assertEqual((txn.get(at), txn.get(at, 5), at in txn), (model.get(at), model.get(at, 5), at in model))
                elif word == 7 and at in model:
                    self.assertEqual(txn[at], model[at])
                    del txn[at], model[at]
                else:
                    with self.assertRaises(KeyError):
                        txn[b"none"]
                    with self.assertRaises(KeyError):
                        del txn[b"none"]
                if turn % 100 == 0:
                    self.assertEqual(list(txn.items()), sorted(model.items()))
                    self.assertEqual((list(txn), list(txn.keys()), len(txn)), (sorted(model), sorted(model), len(model)))
                    self.assertEqual(list(txn.values()), [model[it] for it in sorted(model)])
            self.assertEqual(dict(txn), model)
            self.assertEqual(txn.keys() & {b"1", b"none"}, model.keys() & {b"1", b"none"})
            self.assertIn(sorted(model.items())[0], txn.items())
            self.assertIn(next(iter(model.values())), txn.values())
            txn.update({b"1": 1, b"z": 2})
            self.assertEqual((txn[b"1"], txn[b"z"]), (1, 2))

    def test_it_is_one_object(self):
        with self.store.begin() as one, self.store.begin() as other:
            self.assertTrue(one)
            self.assertFalse(one == other)
            self.assertEqual(len({one, other, one}), 2)

    def test_ranges_beside_a_list(self):
        chance = random.Random(3)
        keys = sorted({b"%d" % chance.randrange(2000) for _ in range(900)})
        with self.store.begin() as txn:
            for i, key in enumerate(keys):
                txn.insert(key, i)
            entries = list(zip(keys, range(len(keys))))
            for _ in range(60):
                lo, hi = (chance.choice([None, b"%d" % chance.randrange(2000)]) for _ in range(2))
                wanted = [it for it in entries if (lo is None or it[0] >= lo) and (hi is None or it[0] <= hi)]
                self.assertEqual(list(txn.range(lo, hi, batch=chance.randrange(2, 257))), wanted)
                part = txn.range(lo, hi, batch=7)
                self.assertEqual([next(part, None) for _ in range(9)] + list(part), (wanted + [None] * 9)[:9] + wanted[9:])
            self.assertEqual([txn.first(), txn.seek(b"1"), txn.next(keys[-1])], [entries[0], txn.seek(b"1"), None])
            self.assertEqual(list(txn.prefix(b"12")), [it for it in entries if it[0].startswith(b"12")])

            for batch in (-1, 0, 1, 257, 1 << 70):
                self.assertRaisesRegex(ValueError, "^batch must be ", txn.range, batch=batch)
                self.assertRaisesRegex(ValueError, "^batch must be ", txn.prefix, b"1", batch=batch)
            self.assertRaisesRegex(TypeError, "^batch must be an int, not str$", txn.range, batch="2")

    def test_the_entries_of_another_mapping(self):
        with self.store.begin() as txn:
            same, txn[b"a"] = txn, 1
            txn |= {b"a": 2, b"b": 3}
            txn |= [(b"c", 4)]
            self.assertIs(txn, same)
            self.assertEqual(dict(txn), {b"a": 2, b"b": 3, b"c": 4})

    def test_slices_and_open_bounds(self):
        chance = random.Random(9)
        keys = sorted({bytes(chance.choice((0, 1, 97, 255)) for _ in range(chance.randrange(1, 4))) for _ in range(60)} | {b"a", b"a" * 254, b"\xff" * 200})
        by_city = self.store.index("by_city")
        with self.store.begin() as txn:
            for index in (by_city.within(txn), txn):
                for key in keys:
                    index[key if index is txn else key[:246]] = 1
                own = [key for key, _ in index.range()]
                self.assertLessEqual({key if index is txn else key[:246] for key in keys}, set(own))
                self.assertEqual([key for key, _ in index.range(b"", b"")], own)
                self.assertEqual([key for key, _ in index[:]], own)
                bounds = [None, b"", b"\0", b"a", b"a\0", b"\1", b"\xff", b"a" * 200, *keys[:20]]
                for lo in bounds:
                    for hi in bounds:
                        found = [key for key, _ in index[lo:hi]]
                        self.assertEqual(found, [it for it in own if it >= (lo or b"") and (not hi or it < hi)], (lo, hi))
                self.assertEqual([key for key, _ in index[bytearray(b"a"):memoryview(b"b")]], [it for it in own if b"a" <= it < b"b"])
                self.assertRaisesRegex(ValueError, "^a slice of keys has no step$", lambda: index[b"a":b"b":2])
                self.assertRaisesRegex(TypeError, "^key must be bytes or a buffer of bytes, not str$", lambda: index["a":])
                self.assertRaisesRegex(TypeError, "^key must be bytes or a buffer of bytes, not int$", lambda: index[:5])

    def test_pop(self):
        for words in (self.store, self.store.begin()):
            words[b"a"] = 7
            self.assertEqual((words.pop(b"a"), words.pop(b"a", None), words.pop(b"a", 5), words.pop(b"a", default="none")), (7, None, 5, "none"))
            self.assertRaises(KeyError, words.pop, b"a")
        with words:  # of threads that share a transaction, one gets each
            for turn in range(50):
                words[b"a"], found = turn, []
                self.assertEqual(together(*[lambda: found.append(words.pop(b"a", None))] * 4), [None] * 4)
                self.assertEqual(sorted(map(str, found)), sorted(map(str, (turn, None, None, None))))
        blob = self.store.blob("texts")
        with self.store.begin() as txn:
            blob.within(txn)[b"a"] = b"long" * 200
            self.assertEqual((blob.within(txn).pop(b"a"), blob.within(txn).pop(b"a", None)), (b"long" * 200, None))
            self.assertRaises(KeyError, blob.within(txn).pop, b"a")

    def test_words_of_a_store(self):
        store = self.store
        store[b"pear"] = 2
        self.assertEqual((store.put(b"apple", 1), store.put(b"apple", 7)), (None, 1))
        self.assertEqual((store[b"apple"], store.get(b"apple"), store.get(b"plum"), store.get(b"plum", "none")), (7, 7, None, "none"))
        self.assertEqual((b"apple" in store, b"plum" in store, list(store), store.items()), (True, False, [b"apple", b"pear"], [(b"apple", 7), (b"pear", 2)]))
        for key in store:
            store[key] += 1  # nothing is held between the words
        self.assertEqual(dict(store.items()), {b"apple": 8, b"pear": 3})
        del store[b"pear"]
        self.assertRaises(KeyError, store.__delitem__, b"pear")
        self.assertRaises(KeyError, store.__getitem__, b"pear")
        self.assertEqual(store.info()["active"], 0)

        def body(txn):
            txn[b"fig"] = 4
            seen = store[b"fig"], store.get(b"fig"), b"fig" in store, list(store), store.items()
            txn.rollback()  # it has ended, and what comes then is by itself
            return seen, b"fig" in store

        wanted = (4, 4, True, [b"apple", b"fig"], [(b"apple", 8), (b"fig", 4)])
        self.assertEqual(store.write(body), (wanted, False))
        store.close()
        for call in (lambda: store[b"a"], lambda: store.items(), lambda: b"a" in store, lambda: store.put(b"a", 1), lambda: list(store)):
            self.assertRaisesRegex(ValueError, "^the store is closed$", call)

    def test_nothing_of_the_library_is_copied(self):
        txn = self.store.begin()
        index, blob = self.store.index("by_city"), self.store.blob("texts")
        each = (self.store, txn, txn.savepoint(), index, blob, index.within(txn), blob.within(txn), txn.range())
        for it in each:
            for call in (copy.copy, copy.deepcopy, pickle.dumps):
                self.assertRaisesRegex(TypeError, r"^vahondrisa\.\w+ can be neither copied nor pickled$", call, it)
        txn[b"a"] = 1
        txn.commit()
        self.assertEqual(self.store.get(b"a"), 1)

    def test_downward(self):
        chance = random.Random(5)
        keys = sorted({b"%d" % chance.randrange(500) for _ in range(120)})
        with self.store.begin() as txn:
            self.assertIsNone(txn.last())
            self.assertRaises(KeyError, txn.popitem)
            for i, key in enumerate(keys):
                txn.insert(key, i)
            entries = list(zip(keys, range(len(keys))))
            for _ in range(30):
                lo, hi = (chance.choice([None, b"%d" % chance.randrange(500), b"\xff" * 255]) for _ in range(2))
                wanted = [it for it in entries if (lo is None or it[0] >= lo) and (hi is None or it[0] <= hi)]
                self.assertEqual(list(txn.range(lo, hi, reverse=True)), wanted[::-1])
                at = b"%d" % chance.randrange(500)
                self.assertEqual(txn.prev(at), max((it for it in entries if it[0] < at), default=None))
            self.assertEqual(list(txn.prefix(b"12", reverse=True)), [it for it in entries if it[0].startswith(b"12")][::-1])
            self.assertEqual((list(reversed(txn)), list(reversed(txn.items()))), (keys[::-1], entries[::-1]))
            self.assertEqual((list(reversed(txn.keys())), list(reversed(txn.values()))), (keys[::-1], list(range(len(keys)))[::-1]))
            txn[b"\xff" * 255] = 5
            self.assertEqual((txn.last(), txn.popitem()), ((b"\xff" * 255, 5),) * 2)
            self.assertEqual(txn.last(), entries[-1])
            txn.clear()
            self.assertEqual(len(txn), 0)

    def test_buffers_and_wrong_types(self):
        with self.store.begin() as txn:
            txn[bytearray(b"a")] = 1
            txn[memoryview(b"ab")[:1]] = 2
            self.assertEqual([txn[it] for it in (b"a", bytearray(b"a"), memoryview(b"a"), array("B", b"a"))], [2] * 4)
            self.assertEqual((list(txn.range(bytearray(b"a"), memoryview(b"b"))), list(txn.prefix(bytearray(b"a")))), ([(b"a", 2)],) * 2)
            self.assertEqual((txn.seek(bytearray(b"a")), txn.next(memoryview(b"A"))), ((b"a", 2),) * 2)
            self.assertTrue(txn.delete(bytearray(b"a")))
            for wrong in ("a", 5, None, 1.5, ["a"]):
                for call in (
                    txn.get, txn.delete, txn.seek, txn.next, txn.prev, txn.__contains__, txn.__getitem__, txn.__delitem__,
                    lambda key: txn.insert(key, 1), lambda key: txn.put(key, 1), lambda key: txn.__setitem__(key, 1),
                ):
                    self.assertRaisesRegex(TypeError, f"^key must be bytes or a buffer of bytes, not {type(wrong).__name__}$", call, wrong)
                self.assertRaisesRegex(TypeError, f"^prefix must be bytes or a buffer of bytes, not {type(wrong).__name__}$", txn.prefix, wrong)
            for wrong in ("a", None, 1.5):
                for call in (txn.insert, txn.put, txn.__setitem__):
                    self.assertRaisesRegex(TypeError, f"^rid must be an int, not {type(wrong).__name__}$", call, b"a", wrong)
            for wrong in (-1, 1 << 64):
                for call in (txn.insert, txn.put, txn.__setitem__):
                    self.assertRaisesRegex(ValueError, f"^rid must be a number of 64 bits, not {wrong}$", call, b"a", wrong)
            txn[b"a"] = True
            self.assertEqual(txn[b"a"], 1)
        for named, words in (({"frames": "8"}, "^frames must be an int, not str$"), ({"timeout": "1"}, "^timeout must be a number of seconds"),
                             ({"redo_bytes": None}, "^redo_bytes must be an int, not NoneType$"), ({"cache_bytes": 1.5}, "^cache_bytes must be an int, not float$")):
            self.assertRaisesRegex(TypeError, words, vahondrisa.open, self.dir + "2", **named)
        self.assertRaisesRegex(ValueError, "^frames must be a number of 32 bits, not 4294967304$", vahondrisa.open, self.dir, frames=2**32 + 8)
        self.assertRaisesRegex(ValueError, "^timeout must be 0 or more seconds, not -1$", self.store.begin, timeout=-1)
        self.assertRaises(TypeError, vahondrisa.open, 5.5)

    def test_openings_fail_as_files_do(self):
        with self.assertRaises(OSError) as caught:
            vahondrisa.open(self.dir)
        self.assertEqual((type(caught.exception), caught.exception.code, caught.exception.filename), (vahondrisa.Locked, 19, self.dir))
        with self.assertRaises(OSError) as caught:
            vahondrisa.open("/proc/none/here")
        self.assertEqual((type(caught.exception), caught.exception.errno), (vahondrisa.Failed, 2))
        self.assertIsInstance(caught.exception.__cause__, FileNotFoundError)
        self.assertIn("/proc/none/here", str(caught.exception))

    def test_errors_are_pickled_and_copied(self):
        errors = [kind(5, "some words") for kind in (vahondrisa.Error, vahondrisa.GiveWay, vahondrisa.Busy, vahondrisa.Deadlock)]
        for folder in (self.dir, "/proc/none/here"):
            with self.assertRaises(OSError) as caught:
                vahondrisa.open(folder)
            errors.append(caught.exception)
        for error in errors:
            for again in (pickle.loads(pickle.dumps(error)), copy.copy(error)):
                self.assertEqual((type(again), again.code, str(again)), (type(error), error.code, str(error)))
                for name in ("errno", "strerror", "filename"):
                    self.assertEqual(getattr(again, name, None), getattr(error, name, None))

    def test_representations(self):
        txn = self.store.begin()
        self.assertEqual(repr(self.store), f"<vahondrisa.Store {self.dir!r}>")
        self.assertEqual(repr(txn), f"<vahondrisa.Transaction of {self.store!r}, active>")
        self.assertEqual(repr(txn.range(b"a", b"b")), "<vahondrisa.Range b'a' to b'b'>")
        self.assertIn("'by_city'", repr(self.store.index("by_city")))
        txn.commit()
        self.assertTrue(repr(txn).endswith(", ended>"))
        self.store.close()
        self.assertEqual(repr(self.store), f"<vahondrisa.Store {self.dir!r}, closed>")

    def test_progress_of_an_opening(self):
        self.store.close()
        with self.run_on(LEFT_BEHIND) as run:
            self.assertEqual(run.wait(), 0)
        told = []

        def stop(count):
            told.append(count)
            raise LookupError

        self.assertRaises(LookupError, vahondrisa.open, self.dir, progress=stop)
        self.assertEqual(len(told), 1)
        with vahondrisa.open(self.dir, progress=told.append) as store:
            self.assertEqual(store.get(b"1999".ljust(200)), 1999)
            self.assertTrue(store.info()["redone"] > 100 > store.info()["redo_from"] > 0, store.info())
        self.assertTrue(len(told) > 2 and told[1:] == sorted(told[1:]), told)

    def test_an_opening_is_stopped_at_any_call_of_its_progress(self):
        self.store.close()
        with self.run_on(LEFT_BEHIND) as run:
            self.assertEqual(run.wait(), 0)
        told, whole = [], self.dir + "-whole"
        shutil.copytree(self.dir, whole)
        vahondrisa.open(whole, progress=told.append).close()
        count = len(told)
        for call in (1, 2, count // 2, count - 1, count):

            def stop(_):
                told.append(0)
                if len(told) == call:
                    raise LookupError(call)

            told.clear()
            self.assertRaisesRegex(LookupError, f"^{call}$", vahondrisa.open, self.dir, progress=stop)
        with vahondrisa.open(self.dir) as store:
            self.assertEqual(store.get(b"1999".ljust(200)), 1999)

    def test_each_number_of_how_a_store_stands(self):
        self.store.close()
        self.store = store = vahondrisa.open(self.dir, frames=8)
        for i in range(20):
            store.write(lambda txn: txn.put(b"%d" % i, i))
        others, older, younger = [store.begin() for _ in range(2)], store.begin(), store.begin()
        older[b"1"] = 5
        self.assertRaises(vahondrisa.GiveWay, younger.get, b"1")
        older.commit()
        for txn in others:
            txn.rollback()
        younger.again()
        others = [store.begin() for _ in range(2)]
        info = store.info()
        ranges = {"dirty_pages": (1, 2), "durable_end": (1000, 9000), "syncs": (21, 900), "log_bytes": (10000, 90000)}
        for name, (least, most) in ranges.items():
            self.assertTrue(least <= info.pop(name) <= most, name)
        self.assertEqual(info, {
            "active": 3, "redo_from": 0, "redone": 0, "has_failed": 0, "restarts": 1, "waits": 0, "forces": 21, "page_reads": 0, "page_writes": 0,
        })
        for txn in (younger, *others):
            txn.rollback()
        self.assertTrue(store.switch())
        info = store.info()
        self.assertEqual([info[it] for it in ("active", "dirty_pages", "restarts", "page_reads", "has_failed")], [0, 0, 1, 0, 0])
        self.assertGreater(info["page_writes"], 0)
        store.close()
        self.store = vahondrisa.open(self.dir)
        self.assertEqual(self.store.get(b"1"), 5)
        info = self.store.info()
        self.assertTrue(info["page_reads"] > 0 == info["page_writes"] == info["syncs"], info)


if __name__ == "__main__":
    unittest.main()
