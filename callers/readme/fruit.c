#include <stdio.h>
#include <vahondrisa.h>

int main(void) {
	vah_store *store;
	vah_txn *txn = NULL;
	uint64_t row;
	if (vah_open("keys", NULL, &store)) return fprintf(stderr, "%s\n", vah_last_error()), 1;
	int rc = vah_begin(store, &txn);
	if (!rc) rc = vah_put(txn, "apple", 5, 7, NULL, NULL);
	if (!rc) rc = vah_fetch(txn, "apple", 5, &row);
	if (!rc) rc = vah_commit(txn);
	if (!rc) printf("apple %llu\n", (unsigned long long)row);
	else fprintf(stderr, "%s\n", vah_last_error()), vah_rollback(txn);
	return vah_close(store) || rc;
}
