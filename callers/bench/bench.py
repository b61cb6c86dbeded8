"""The same work as bench.c, by vahondrisa and by the modules lmdb and sqlite3. bench.py vah|lmdb|sqlite FOLDER THREADS"""
import os
import sqlite3
import sys
import threading
import time

who, folder = sys.argv[1:3]
THREADS = int(sys.argv[3])
KEYS, COMMITS, READS, SCANS = 20032, 1600, 60000, 1600
M = (1 << 64) - 1


def mix(x: int) -> bytes:
    x = x + 0x9E3779B97F4A7C15 & M
    x = (x ^ x >> 30) * 0xBF58476D1CE4E5B9 & M
    x = (x ^ x >> 27) * 0x94D049BB133111EB & M
    return (x ^ x >> 31).to_bytes(8, "little")


class Vah:
    def __init__(self) -> None:
        import vahondrisa

        self.store = vahondrisa.open(folder)

    def insert(self, pairs: list) -> None:
        self.store.write(lambda txn: [txn.insert(key, number) for key, number in pairs])

    def look_up(self, keys: list) -> int:
        with self.store.begin() as txn:
            return sum(txn.get(key) for key in keys)

    def scan(self, key: bytes) -> int:
        with self.store.begin() as txn:
            n = 0
            for _ in txn.range(key, b"\xff" * 8, batch=100):
                n += 1
                if n == 100:
                    break
            return n

    def close(self) -> None:
        info = self.store.info()
        print(f"python vah {THREADS} in all: {info['restarts']} restarts, {info['waits']} waits")
        self.store.close()


class Lmdb:
    def __init__(self) -> None:
        import lmdb

        self.env = lmdb.open(folder, map_size=1 << 30)

    def insert(self, pairs: list) -> None:
        with self.env.begin(write=True) as txn:
            for key, number in pairs:
                txn.put(key, number.to_bytes(8, "little"), overwrite=False)

    def look_up(self, keys: list) -> int:
        with self.env.begin() as txn:
            return sum(int.from_bytes(txn.get(key), "little") for key in keys)

    def scan(self, key: bytes) -> int:
        with self.env.begin() as txn, txn.cursor() as cursor:
            n = 0
            if cursor.set_range(key):
                for _, value in cursor:
                    int.from_bytes(value, "little")
                    n += 1
                    if n == 100:
                        break
            return n

    def close(self) -> None:
        self.env.close()


class Sqlite:
    def __init__(self) -> None:
        os.mkdir(folder)
        self.own = threading.local()
        self.db().executescript("PRAGMA journal_mode=WAL; CREATE TABLE t(k BLOB PRIMARY KEY, n INTEGER) WITHOUT ROWID")

    def db(self) -> sqlite3.Connection:
        """The thread's own connection."""
        if not hasattr(self.own, "db"):
            self.own.db = sqlite3.connect(f"{folder}/db", timeout=60, isolation_level=None)
            self.own.db.execute("PRAGMA synchronous=FULL")
        return self.own.db

    def insert(self, pairs: list) -> None:
        db = self.db()
        db.execute("BEGIN IMMEDIATE")
        for pair in pairs:
            db.execute("INSERT INTO t VALUES (?, ?)", pair)
        db.execute("COMMIT")

    def look_up(self, keys: list) -> int:
        db = self.db()
        db.execute("BEGIN")
        found = sum(db.execute("SELECT n FROM t WHERE k = ?", (key,)).fetchone()[0] for key in keys)
        db.execute("COMMIT")
        return found

    def scan(self, key: bytes) -> int:
        return sum(1 for _ in self.db().execute("SELECT k, n FROM t WHERE k >= ? ORDER BY k LIMIT 100", (key,)))

    def close(self) -> None:
        self.db().close()


user = {"vah": Vah, "lmdb": Lmdb, "sqlite": Sqlite}[who]()
keys = [mix(i) for i in range(KEYS)]
late = [mix(1000000 + i) for i in range(COMMITS)]
wanted = [i * 7919 % KEYS for i in range(READS)]


def timed(what: str, count: int, each: int, turn) -> None:
    """Turns of so many each, of which every thread does its part."""
    threads = [threading.Thread(target=lambda n=n: [turn(i) for i in range(n * each, count, each * THREADS)]) for n in range(THREADS)]
    wall, processor = time.perf_counter(), time.process_time()
    for it in threads:
        it.start()
    for it in threads:
        it.join()
    wall, processor = time.perf_counter() - wall, time.process_time() - processor
    print(f"python {who} {THREADS} {what}: {count / wall:.0f} a second, {processor / count * 1e6:.2f} us of processor", flush=True)


def look_up(i: int) -> None:
    assert user.look_up([keys[j] for j in wanted[i : i + 100]]) == sum(wanted[i : i + 100])


timed("inserts, 64 a commit", KEYS, 64, lambda i: user.insert([(keys[j], j) for j in range(i, i + 64)]))
timed("inserts, 1 a commit", COMMITS, 1, lambda i: user.insert([(late[i], i)]))
timed("look-ups, 100 a transaction", READS, 100, look_up)
timed("scans of 100", SCANS, 1, lambda i: user.scan(mix(i)))
user.close()
