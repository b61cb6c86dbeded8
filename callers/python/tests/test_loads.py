"""Stores that a load makes of rising keys."""
import os
import unittest

import vahondrisa
from support import Case


class Loads(Case):
    def folder(self, name):
        return os.path.join(self.room.name, name)

    def test_a_load_makes_a_store_of_its_entries(self):
        for count in (0, 1, 256, 257, 20_000):
            at, items = self.folder(f"of{count}"), [(b"%09d" % i, i) for i in range(count)]
            vahondrisa.load(at, items)
            with vahondrisa.open(at) as store:
                self.assertEqual(store.items(), items)
                store[b"z"] = 1

    def test_names_and_long_values_are_loaded_beside_other_keys(self):
        at, rows = self.folder("named"), [(b"%05d" % i, i) for i in range(3000)]
        notes = [(b"\0" + bytes([i]), bytes([i]) * (i * 97)) for i in range(100)]
        vahondrisa.load(at, rows, indexes={"by_id": rows, "b": [], "a\u00e9": [(b"\xff" * 250, 3)]}, blobs={"notes": notes, "none": []})
        with vahondrisa.open(at) as store:
            self.assertEqual((store.indexes(), store.blobs()), (["a\u00e9", "b", "by_id"], ["none", "notes"]))
            by_id, texts, other = store.index("by_id"), store.blob("notes"), store.index("a\u00e9")
            with store.begin() as txn:
                self.assertEqual(list(by_id.within(txn).items()), rows)
                self.assertEqual(list(texts.within(txn).items()), notes)
                self.assertEqual(list(other.within(txn).items()), [(b"\xff" * 250, 3)])
                self.assertEqual(list(store.index("b").within(txn)), [])
                self.assertEqual(list(txn.range(b" ")), rows)
                by_id.within(txn)[b"z"] = 1
                texts.within(txn)[b"z"] = b"z" * 1000
        made = self.folder("made")
        with vahondrisa.open(made) as store:
            by_id, texts, other = store.index("by_id"), store.blob("notes"), store.index("a\u00e9")
            store.index("b"), store.blob("none")
            with store.begin() as txn:
                for key, rid in rows:
                    txn[key] = rid
                    by_id.within(txn)[key] = rid
                for key, value in notes:
                    texts.within(txn)[key] = value
                other.within(txn)[b"\xff" * 250] = 3
            items = store.items()
        again = self.folder("again")
        vahondrisa.load(again, rows, indexes={"by_id": rows, "b": [], "a\u00e9": [(b"\xff" * 250, 3)]}, blobs={"notes": notes, "none": []})
        with vahondrisa.open(again) as store:
            self.assertEqual(store.items(), items)

    def test_names_that_are_refused_leave_no_store(self):
        at = self.folder("names")
        for words in (
            {"indexes": {"a": []}, "blobs": {"a": []}}, {"indexes": {"": []}}, {"blobs": {"x" * 32: []}}, {"indexes": {"a": [(b"", 1)]}}, {"indexes": {"a": [(b"x" * 253, 1)]}},
            {"indexes": {"a": [(b"b", 1), (b"a", 1)]}}, {"blobs": {"a": [(b"", b"")]}}, {"blobs": {"a": [(b"x" * 217, b"")]}}, {"blobs": {"a": [(b"b", b""), (b"a", b"")]}},
            {"items": [(b"\x01a", 1)], "indexes": {"a": []}},
        ):
            self.assertRaises(ValueError, vahondrisa.load, at, **words)
            self.assertFalse(os.path.isdir(at) and os.listdir(at), words)
        self.assertRaises(TypeError, vahondrisa.load, at, blobs={"a": [(b"a", "text")]})

    def test_a_compact_store_has_the_same_entries_in_fewer_pages(self):
        at, to = self.folder("store"), self.folder("compact")
        with vahondrisa.open(at) as store:
            with store.begin() as txn:
                for i in range(20_000):
                    txn[b"%09d" % (i * 7919 % 20_000)] = i
            items = store.items()
            self.assertRaises(vahondrisa.Locked, vahondrisa.compact, at, to)
        vahondrisa.compact(at, to)
        with vahondrisa.open(to) as store:
            self.assertEqual(store.items(), items)
        self.assertLess(os.path.getsize(to + "/pages") * 10, os.path.getsize(at + "/pages") * 9)
        self.assertRaises(vahondrisa.NotCopied, vahondrisa.compact, at, to)

    def test_a_load_that_is_refused_leaves_no_store(self):
        at = self.folder("refused")
        for keys in ([b"b", b"a"], [b"a", b"a"], [b""], [b"x" * 256]):
            self.assertRaises(ValueError, vahondrisa.load, at, [(key, 1) for key in keys])
            self.assertEqual(os.listdir(at), [])
        self.assertRaises(TypeError, vahondrisa.load, at, [("text", 1)])
        self.assertRaises(ValueError, vahondrisa.load, at, [(b"a", 1 << 64)])
        self.assertRaises(TypeError, vahondrisa.load, at, 7)
        self.assertRaises(ValueError, vahondrisa.load, at + "\0", [])

        def given_up():
            yield from ((b"%09d" % i, i) for i in range(700))
            raise KeyError("given up")

        self.assertRaises(KeyError, vahondrisa.load, at, given_up())
        self.assertEqual(os.listdir(at), [])
        vahondrisa.load(at, {b"apple": 7}.items())
        self.assertRaises(vahondrisa.NotCopied, vahondrisa.load, at, [])


if __name__ == "__main__":
    unittest.main()
