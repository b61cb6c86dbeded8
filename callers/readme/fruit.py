import vahondrisa

with vahondrisa.open("keys") as store:
    with store.begin() as txn:
        txn[b"apple"] = 7
        print("apple", txn[b"apple"], b"plum" in txn)
        for key, rid in txn.range(b"a", b"z"):
            print(key.decode(), rid)
