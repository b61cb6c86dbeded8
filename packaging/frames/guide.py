"""What the fragments in Python of docs/GUIDE.md stand in."""
import tempfile

import vahondrisa

id, city, row = b"7", b"oslo", 7
items = [(b"apple", 7), (b"pear", 8)]
with tempfile.TemporaryDirectory() as folder, vahondrisa.open(folder) as store:
    store.write(lambda txn: txn.put(b"user12", 7))
    with store.begin() as txn:
        # @block@
