/* keep DIR: the first time it commits a key and is killed; the second time it finds the key. */
#include <signal.h>
#include <stdio.h>
#include <vahondrisa.h>

int main(int argc, char **argv)
{
	vah_store *store;
	vah_txn *txn;
	uint64_t row;
	if (argc != 2 || vah_open(argv[1], NULL, &store) || vah_begin(store, &txn))
		return fprintf(stderr, "keep: %s\n", vah_last_error()), 1;
	int code = vah_fetch(txn, "apple", 5, &row);
	if (code == VAH_NOT_FOUND) {
		if (vah_insert(txn, "apple", 5, 7) || vah_commit(txn))
			return fprintf(stderr, "keep: %s\n", vah_last_error()), 1;
		raise(SIGKILL);
	}
	if (code || vah_rollback(txn) || vah_close(store))
		return fprintf(stderr, "keep: %s\n", vah_last_error()), 1;
	printf("apple %llu\n", (unsigned long long)row);
	return 0;
}
