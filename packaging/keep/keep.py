"""keep.py DIR: the first time it commits a key and is killed; the second time it finds the key."""
import os
import signal
import sys

import vahondrisa

with vahondrisa.open(sys.argv[1]) as store:
    with store.begin() as txn:
        is_there = b"apple" in txn
        if is_there:
            print("apple", txn[b"apple"])
        else:
            txn.insert(b"apple", 7)
    if not is_there:
        os.kill(os.getpid(), signal.SIGKILL)
