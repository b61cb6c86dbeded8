/* Keys in a folder: insert, commit, and what is there; then two threads that count on one key. */
#include "test.h"
#include <pthread.h>

enum { ROUNDS = 200 };

/* Adds 1 to the number of a key, again where it has to give way. */
static int add_one(vah_store *store)
{
	vah_txn *txn;
	OK(vah_begin(store, &txn));
	for (;;) {
		uint64_t n = 0;
		int rc = vah_fetch(txn, "count", 5, &n);
		if (!rc) rc = vah_delete(txn, "count", 5);
		if (!rc) rc = vah_insert(txn, "count", 5, n + 1);
		if (!rc) return vah_commit(txn);
		if (rc != VAH_GIVE_WAY) { vah_rollback(txn); return rc; }
		OK(vah_again(txn));
	}
}

static void *work(void *store)
{
	for (int i = 0; i < ROUNDS; i++)
		OK(add_one(store));
	return NULL;
}

int main(int argc, char **argv)
{
	vah_store *store, *second;
	vah_txn *txn;
	vah_entry entries[8], one;
	vah_info info;
	uint64_t n;
	size_t count;
	pthread_t threads[2];
	const char *dir = argc > 1 ? argv[1] : "example_store";

	OK(vah_open(dir, NULL, &store));
	IS(vah_open(dir, NULL, &second), VAH_LOCKED);
	printf("%s\n", strrchr(vah_last_error(), '/') ? strrchr(vah_last_error(), '/') + 1 : vah_last_error());
	OK(vah_begin(store, &txn));
	OK(vah_insert(txn, "apple", 5, 7));
	OK(vah_insert(txn, "pear", 4, 8));
	OK(vah_insert(txn, "count", 5, 0));
	IS(vah_insert(txn, "pear", 4, 9), VAH_EXISTS);
	IS(vah_fetch(txn, "plum", 4, &n), VAH_NOT_FOUND);
	OK(vah_scan(txn, "a", 1, "z", 1, entries, 8, &count));
	for (size_t i = 0; i < count; i++)
		printf("%.*s %llu\n", entries[i].len, (const char *)entries[i].key, (unsigned long long)entries[i].rid);
	OK(vah_commit(txn));
	for (int i = 0; i < 2; i++) pthread_create(&threads[i], NULL, work, store);
	for (int i = 0; i < 2; i++) pthread_join(threads[i], NULL);
	OK(vah_begin(store, &txn));
	OK(vah_fetch(txn, "count", 5, &n));
	printf("count %llu\n", (unsigned long long)n);
	OK(vah_seek(txn, "b", 1, &one));
	printf("from b: %.*s\n", one.len, (const char *)one.key);
	IS(vah_next(txn, "pear", 4, &one), VAH_NOT_FOUND);
	OK(vah_delete(txn, "apple", 5));
	OK(vah_rollback(txn));
	OK(vah_begin(store, &txn));
	OK(vah_fetch(txn, "apple", 5, &n));
	OK(vah_commit(txn));
	OK(vah_checkpoint(store));
	OK(vah_stat(store, &info));
	printf("active %llu, failed %llu\n", (unsigned long long)info.active, (unsigned long long)info.has_failed);
	OK(vah_close(store));
	OK(vah_open(dir, NULL, &store));
	OK(vah_begin(store, &txn));
	OK(vah_fetch(txn, "count", 5, &n));
	printf("opened again: count %llu\n", (unsigned long long)n);
	OK(vah_commit(txn));
	OK(vah_close(store));
	return 0;
}
