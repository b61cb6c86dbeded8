"""Named indexes and long values."""
import random
import unittest

import vahondrisa
from support import Case, together


class Named(Case):
    def setUp(self):
        super().setUp()
        self.store = vahondrisa.open(self.dir)

    def tearDown(self):
        self.store.close()
        super().tearDown()

    def test_indexes_have_keys_of_their_own(self):
        chance = random.Random(1)
        names = ["a", "by_city", "by_citz", "é" * 15, "b" * 31]
        models = {name: {} for name in names}
        indexes = {name: self.store.index(name) for name in names}
        longest = {name: 253 - len(name.encode()) for name in names}
        with self.store.begin() as txn:
            txn[b"zebra"] = 1  # beside all of them
            for _ in range(1500):
                name = chance.choice(names)
                key = chance.choice([b"\0", b"\xff", b"a", b"\xff" * longest[name], b"%d" % chance.randrange(300)])
                keys, rid = indexes[name].within(txn), chance.randrange(1 << 64)
                if chance.randrange(3):
                    self.assertEqual(keys.put(key, rid), models[name].get(key))
                    models[name][key] = rid
                else:
                    self.assertEqual(keys.delete(key), models[name].pop(key, None) is not None)
        self.store.close()
        self.store = vahondrisa.open(self.dir)
        self.assertEqual(self.store.indexes(), sorted(names, key=lambda it: it.encode()))
        with self.store.begin() as txn:
            for name in names:
                keys, wanted = self.store_index_within(name, txn), sorted(models[name].items())
                self.assertEqual(list(keys.items()), wanted)
                self.assertEqual((keys.first(), len(keys), keys.seek(b"\0")), (wanted[0], len(wanted), wanted[0]))
                self.assertIsNone(keys.next(b"\xff" * longest[name]))
                self.assertEqual(list(keys.range(b"1", b"3", batch=5)), [it for it in wanted if b"1" <= it[0] <= b"3"])
                self.assertEqual(list(keys.prefix(b"1")), [it for it in wanted if it[0].startswith(b"1")])
                self.assertEqual(list(keys.prefix(b"")), wanted)
                self.assertEqual(list(keys.prefix(b"\xff")), [it for it in wanted if it[0].startswith(b"\xff")])
                self.assertEqual((list(reversed(keys)), keys.last()), ([it[0] for it in wanted[::-1]], wanted[-1]))
                self.assertEqual((keys.prev(wanted[1][0]), keys.prev(b"\0")), (wanted[0], None))
            self.assertEqual(txn[b"zebra"], 1)

    def store_index_within(self, name, txn):
        # an index that is there is found without a word of its making, beside a transaction
        return self.store.index(name).within(txn)

    def test_names_and_keys_that_are_refused(self):
        by_city, texts = self.store.index("by_city"), self.store.blob("texts")
        self.assertEqual((by_city.name, texts.name, self.store.indexes(), self.store.blobs()), ("by_city", "texts", ["by_city"], ["texts"]))
        for name in ("", "b" * 32, "é" * 16):
            self.assertRaisesRegex(ValueError, "^name must have 1 to 31 bytes", self.store.index, name)
        self.assertRaisesRegex(TypeError, "^name must be a str, not bytes$", self.store.index, b"a")
        self.assertRaisesRegex(ValueError, "^'texts' names a set of long values already, and not an index$", self.store.index, "texts")
        self.assertRaisesRegex(ValueError, "^'by_city' names an index already, and not a set of long values$", self.store.blob, "by_city")
        with vahondrisa.open(self.dir + "2") as other, other.begin() as txn:
            self.assertRaisesRegex(ValueError, "^txn must be of the store", by_city.within, txn)
            self.assertRaisesRegex(ValueError, "^txn must be of the store", texts.within, txn)
        with self.store.begin() as txn:
            for key in (b"", b"a" * 247):
                for call in (by_city.within(txn).get, by_city.within(txn).seek, by_city.within(txn).delete):
                    self.assertRaisesRegex(ValueError, "^a key of this index has 1 to 246 bytes", call, key)
            self.assertRaisesRegex(ValueError, "^a key of this index has 1 to 246 bytes", by_city.within(txn).range, b"a" * 247)
            self.assertIsNone(by_city.within(txn).get(b"a" * 246))
            for key in (b"", b"a" * 213, b"\0" * 107):
                self.assertRaisesRegex(ValueError, "^a key of a long value has 1 to 212 bytes here", texts.within(txn).get, key)
            self.assertIsNone(texts.within(txn).get(b"a" * 212))
            self.assertRaisesRegex(TypeError, "^key must be bytes", texts.within(txn).get, "a")
            self.assertRaisesRegex(TypeError, "^value must be bytes", texts.within(txn).put, b"a", "b")

    def test_neighbours_do_not_wait_for_each_other(self):
        one, two = self.store.index("1"), self.store.index("2")
        with self.store.begin() as txn:
            two.within(txn)[b"\0"] = 1
        older, younger = self.store.begin(wait=False), self.store.begin(wait=False)
        two.within(older)[b"\0\0"] = 2  # locks the first key of the second index
        one.within(younger)[b"z"] = 3  # and this the guard of the first
        self.assertEqual(list(one.within(younger).items()), [(b"z", 3)])
        older.commit()
        younger.commit()

    def test_long_values(self):
        chance, model = random.Random(9), {}
        texts = self.store.blob("texts")
        keys = [b"a", b"a\0", b"a\0\0b", b"a\0\xff", b"a\xff", b"\0", b"\xff" * 100, b"a\1"]
        for _ in range(40):
            with self.store.begin() as txn:
                values = texts.within(txn)
                for _ in range(4):
                    key = chance.choice(keys)
                    value = chance.randbytes(chance.choice([0, 1, 200, 236, 237, 238, 5000]))
                    if chance.randrange(4):
                        self.assertEqual(values.put(key, value), key in model)
                        model[key] = value
                    else:
                        self.assertEqual(values.pop(key, None), model.pop(key, None))
                self.assertEqual(list(values), sorted(model))
                self.assertEqual(list(values.items()), sorted(model.items()))
                for key in keys:
                    self.assertEqual((values.get(key), key in values), (model.get(key), key in model))
                    self.assertEqual(values.size(key), len(model[key]) if key in model else None)
        self.store.close()
        self.store = vahondrisa.open(self.dir)
        with self.store.begin() as txn:
            values = self.store.blob("texts").within(txn)
            self.assertEqual(dict(values), model)
            self.assertEqual(len(values), len(model))
            self.assertRaises(KeyError, values.__getitem__, b"none")
            self.assertRaises(KeyError, values.__delitem__, b"none")
            values.clear()
            # all that is left are the row and the two guards
            self.assertEqual(len(txn), 3)

    def test_all_languages_make_the_same_entries(self):
        # as callers/c/tests/recipes.c and callers/rust/vahondrisa/tests/words.rs: each entry's key and row id in an FNV-1a hash
        value = bytes((i * 7 + i // 256) & 255 for i in range(100000))
        by_city, notes = self.store.index("by_city"), self.store.blob("notes")
        with self.store.begin() as txn:
            by_city.within(txn).update({b"oslo": 7, b"rome": 8})
            texts = notes.within(txn)
            texts |= {b"a": b"", b"a\0": value[:300], b"a\0b": value, b"b": value[:240]}
            hash, count = 0xCBF29CE484222325, 0
            for key, rid in txn.items():
                count += 1
                for byte in key + rid.to_bytes(8, "little"):
                    hash = (hash ^ byte) * 0x100000001B3 & 2**64 - 1
            self.assertEqual((count, hash), (428, 0xA2283477B8010E86))

    def test_a_value_is_replaced_whole_or_not_at_all(self):
        texts = self.store.blob("texts")
        with self.store.begin() as txn:
            texts.within(txn)[b"a"] = b"one" * 1000
        with self.assertRaises(ZeroDivisionError), self.store.begin() as txn:
            texts.within(txn)[b"a"] = bytearray(b"two" * 2000)
            self.assertEqual(texts.within(txn)[b"a"], b"two" * 2000)
            1 / 0
        with self.store.begin() as txn:
            self.assertEqual(texts.within(txn)[b"a"], b"one" * 1000)
            # the parts that are the same stay
            before = dict(txn)
            texts.within(txn)[b"a"] = b"one" * 999
            self.assertGreater(len(before.keys() & txn.keys()), 3)

    def test_a_value_that_is_refused_half_way_is_not_kept_half(self):
        texts = self.store.blob("b")
        with self.store.begin() as txn:
            texts.within(txn)[b"a"] = b"A" * 700
        # a younger transaction holds what lies after all parts: so one of the old parts is not taken out, when others were
        with self.store.begin(wait=False) as older, self.store.begin() as younger:
            younger.get(b"\x01bz")
            for change in (lambda: texts.within(older).put(b"a", b"B" * 3000), lambda: texts.within(older).delete(b"a")):
                self.assertRaises(vahondrisa.Busy, change)
                self.assertEqual(texts.within(older)[b"a"], b"A" * 700)
            older[b"other"] = 1
        # an exception of a signal is no other than a refusal
        def interrupted(key, rid):
            if b"\0\0\0\3" in key:
                raise KeyboardInterrupt
            return vahondrisa.Transaction.insert(txn, key, rid)

        with self.store.begin() as txn:
            txn.insert = interrupted
            self.assertRaises(KeyboardInterrupt, texts.within(txn).put, b"a", b"B" * 3000)
            self.assertRaises(KeyboardInterrupt, texts.within(txn).put, b"new", b"B" * 3000)
            self.assertEqual(dict(texts.within(txn)), {b"a": b"A" * 700})
        with self.store.begin() as txn:
            self.assertEqual((txn[b"other"], dict(texts.within(txn))), (1, {b"a": b"A" * 700}))

    def test_a_value_is_taken_back_whatever_others_hold(self):
        texts = self.store.blob("b")

        def insert(key, rid):
            if key.startswith(b"\x01ba\0\0\0\3"):
                younger.get(b"\x01bz")  # holds what lies after the parts, so that a delete of one would wait too
            return vahondrisa.Transaction.insert(older, key, rid)

        older, younger = self.store.begin(wait=False), self.store.begin()
        older.insert = insert
        self.assertRaises(vahondrisa.Busy, texts.within(older).put, b"a", b"A" * 3000)
        self.assertIn("active", repr(older))
        younger.rollback()
        texts.within(older)[b"b"] = b"B" * 1000
        older.commit()
        with self.store.begin() as txn:
            self.assertEqual(dict(texts.within(txn)), {b"b": b"B" * 1000})

    def test_a_value_whose_return_was_cut_off_is_not_committed(self):
        for ends in (lambda: txn.commit(), lambda: txn.__exit__(None, None, None)):
            txn = self.store.begin()
            txn[b"other"] = 1
            txn._is_half = True  # as two exceptions of signals leave it, one upon the other
            self.assertIn("to be rolled back", repr(txn))
            with self.assertRaisesRegex(vahondrisa.Error, "the transaction must roll back, as a long value was changed in part$") as caught:
                ends()
            self.assertEqual((caught.exception.code, self.store.info()["active"]), (2, 0))
            self.assertRaisesRegex(ValueError, "^the transaction has ended$", txn.commit)
        self.assertIsNone(self.store.get(b"other"))

    def test_threads_that_change_one_value(self):
        texts = self.store.blob("b")
        for _ in range(10):
            with self.store.begin() as txn:
                put = lambda value: texts.within(txn).put(b"a", value)
                self.assertEqual(together(*(lambda it=it: put(it * 5000) for it in (b"A", b"B", b"C"))), [None] * 3)
                self.assertIn(texts.within(txn)[b"a"][:1] * 5000, [texts.within(txn)[b"a"]])
            # a commit beside a change comes before it, or after it
            txn = self.store.begin()
            raised = together(lambda: put(b"D" * 9000), lambda: txn.commit())
            self.assertTrue(raised[0] is None or str(raised[0]) == "the transaction has ended", raised)
            self.assertIsNone(raised[1])
            with self.store.begin() as txn:
                self.assertEqual(len(texts.within(txn)[b"a"]), 9000 if raised[0] is None else 5000)

    def test_parts_that_do_not_agree_are_told(self):
        texts = self.store.blob("texts")
        with self.store.begin() as txn:
            texts.within(txn)[b"a"] = b"one" * 1000
            parts = [key for key, _ in txn.prefix(b"\5texts")]
            for part in (0, 3, -2):  # (after the last one is the guard)
                rid = txn.pop(parts[part])
                self.assertRaisesRegex(ValueError, "^the parts of a long value do not agree$", texts.within(txn).get, b"a")
                moved = parts[part][:8] + b"\1" + parts[part][9:]  # as a later part
                txn[moved] = rid
                self.assertRaisesRegex(ValueError, "^the parts of a long value do not agree$", texts.within(txn).get, b"a")
                del txn[moved]
                txn[parts[part]] = rid
            self.assertEqual(texts.within(txn)[b"a"], b"one" * 1000)


if __name__ == "__main__":
    unittest.main()
