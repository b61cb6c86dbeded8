/* Handles that no caller can break: every call with NULL, with what has ended, was closed, is of another kind or is none; a transaction that several
 * threads use; a store that is closed beside 16 threads at work. handles FOLDER [ROUNDS] */
#define _GNU_SOURCE
#include "test.h"
#include <pthread.h>
#include <stdatomic.h>
#include <unistd.h>

static int rounds = 6;

/* ---- every call ---- */

/* Each call of a transaction is refused alike, and changes nothing that it was handed. */
static void refuses_txn(vah_txn *txn, int code)
{
	vah_entry entry = { .rid = 77, .len = 7 };
	vah_ref ref = { .rid = 77 };
	uint64_t rid = 77, previous = 77, save = 77;
	int was_there = 77;
	size_t count = 77;
	IS(vah_fetch(txn, "a", 1, &rid), code);
	IS(vah_insert(txn, "a", 1, 1), code);
	IS(vah_put(txn, "a", 1, 1, &was_there, &previous), code);
	IS(vah_delete(txn, "a", 1), code);
	IS(vah_seek(txn, "a", 1, &entry), code);
	IS(vah_next(txn, "a", 1, &entry), code);
	IS(vah_prev(txn, "a", 1, &entry), code);
	IS(vah_last(txn, &entry), code);
	IS(vah_scan(txn, "a", 1, "b", 1, &entry, 1, &count), code);
	IS(vah_scan_refs(txn, "a", 1, "b", 1, &ref, 1, &count), code);
	IS(vah_set_wait(txn, 1), code);
	IS(vah_savepoint(txn, &save), code);
	IS(vah_roll_to(txn, 0), code);
	IS(vah_commit(txn), code);
	IS(vah_again(txn), code);
	if (txn) IS(vah_rollback(txn), code);
	HOLDS(entry.rid == 77 && entry.len == 7 && ref.rid == 77 && rid == 77 && previous == 77 && save == 77 && was_there == 77 && count == 77);
}

static void refuses_store(vah_store *store, int code)
{
	vah_txn *txn = (vah_txn *)&rounds;
	vah_info info = { .active = 77 };
	IS(vah_begin(store, &txn), code);
	IS(vah_begin_with(store, VAH_NO_WAIT, &txn), code);
	IS(vah_begin_within(store, 0, 1, &txn), code);
	IS(vah_stat(store, &info), code);
	IS(vah_flush(store), code);
	IS(vah_checkpoint(store), code);
	IS(vah_switch(store), code);
	IS(vah_copy(store, "never_made"), code);
	IS(vah_copy_with(store, "never_made", NULL, NULL), code);
	if (store) IS(vah_close(store), code);
	HOLDS(txn == (vah_txn *)&rounds && info.active == 77);
}

/* What is no handle: numbers near those of handles, and real addresses. */
static void refuses_junk(const vah_store *store, const vah_txn *txn)
{
	static char memory[64];
	uint64_t some[] = { 1, 4096, UINT64_MAX, UINT64_C(1) << 63, (uint64_t)(uintptr_t)memory, (uint64_t)(uintptr_t)&store };
	for (size_t i = 0; i < sizeof some / sizeof *some; i++) {
		refuses_store((vah_store *)(uintptr_t)some[i], VAH_INVALID);
		refuses_txn((vah_txn *)(uintptr_t)some[i], VAH_INVALID);
	}
	refuses_store((vah_store *)(uintptr_t)txn, VAH_INVALID);
	refuses_txn((vah_txn *)(uintptr_t)store, VAH_INVALID);
	for (int bit = 0; bit < 60; bit++) {
		uint64_t flipped = UINT64_C(1) << bit;
		int of_store = vah_flush((vah_store *)((uintptr_t)store ^ flipped)), of_txn = vah_delete((vah_txn *)((uintptr_t)txn ^ flipped), "none", 4);
		HOLDS(of_store == VAH_CLOSED || of_store == VAH_INVALID);
		HOLDS(of_txn == VAH_NO_TRANSACTION || of_txn == VAH_INVALID);
	}
}

static void every_call(const char *dir)
{
	enum { MANY = 200 };
	static vah_txn *ended[MANY];
	char other_dir[4096];
	vah_store *store, *other, *closed[4];
	vah_txn *txn, *kept;
	uint64_t rid;
	snprintf(other_dir, sizeof other_dir, "%.4000s_other", dir);
	refuses_store(NULL, VAH_INVALID);
	refuses_txn(NULL, VAH_INVALID);
	OK(vah_close(NULL));
	OK(vah_rollback(NULL));
	for (int i = 0; i < 4; i++) { /* the same folder and the same shell, but never the same name */
		OK(vah_open(dir, NULL, &closed[i]));
		OK(vah_close(closed[i]));
		for (int j = 0; j <= i; j++) refuses_store(closed[j], VAH_CLOSED);
	}
	OK(vah_open(dir, NULL, &store));
	OK(vah_open(other_dir, NULL, &other));
	for (int j = 0; j < 4; j++) refuses_store(closed[j], VAH_CLOSED);
	OK(vah_begin(store, &kept));
	OK(vah_insert(kept, "kept", 4, 4));
	refuses_junk(store, kept);
	for (int i = 0; i < MANY; i++) {
		OK(vah_begin(i % 3 ? store : other, &ended[i]));
		OK(i % 2 ? vah_commit(ended[i]) : vah_rollback(ended[i]));
		for (int j = i > 3 ? i - 3 : 0; j <= i; j++) refuses_txn(ended[j], VAH_NO_TRANSACTION);
	}
	OK(vah_begin(store, &txn));
	OK(vah_begin(other, &ended[0]));
	for (int j = 1; j < MANY; j++) refuses_txn(ended[j], VAH_NO_TRANSACTION);
	OK(vah_rollback(ended[0]));
	OK(vah_rollback(txn));
	OK(vah_fetch(kept, "kept", 4, &rid));
	HOLDS(rid == 4);
	IS(vah_close(store), VAH_ACTIVE);
	OK(vah_commit(kept));
	OK(vah_close(store));
	refuses_store(store, VAH_CLOSED);
	refuses_txn(kept, VAH_NO_TRANSACTION);
	OK(vah_close(other));
	HOLDS(strstr(vah_last_error(), "the transaction has ended"));
}

/* ---- more stores than there are shells ---- */

/* A few hundred at once, as each takes three descriptors; all of them are apart. */
static void many_stores(const char *dir)
{
	enum { STORES = 40 };
	vah_store *all[STORES];
	vah_txn *txn;
	uint64_t rid;
	for (int round = 0; round < 2; round++) {
		for (int i = 0; i < STORES; i++) {
			char at[4096];
			vah_config config = VAH_CONFIG_INIT;
			config.frames = 8;
			snprintf(at, sizeof at, "%.4000s/%d", dir, i);
			OK(vah_open(at, &config, &all[i]));
			OK(vah_begin(all[i], &txn));
			OK(vah_put(txn, "n", 1, (uint64_t)(1000 * round + i), NULL, NULL));
			OK(vah_commit(txn));
		}
		for (int i = 0; i < STORES; i++) {
			OK(vah_begin(all[i], &txn));
			OK(vah_fetch(txn, "n", 1, &rid));
			HOLDS(rid == (uint64_t)(1000 * round + i));
			OK(vah_commit(txn));
			OK(vah_close(all[i]));
			refuses_store(all[i], VAH_CLOSED);
		}
	}
}

/* ---- one transaction in several threads ---- */

static vah_txn *_Atomic shared;

/* Works in whichever transaction is there; it may be ended by any other meanwhile. */
static void *use_shared(void *arg)
{
	vah_entry entry;
	vah_ref refs[4];
	size_t count;
	unsigned mix = *(unsigned *)arg;
	for (int i = 0; i < 400; i++) {
		vah_txn *txn = atomic_load(&shared);
		char key[2] = { 'k', (char)('a' + i % 20) };
		uint64_t save;
		int rc;
		switch ((mix = mix * 1664525u + 1013904223u) >> 28) {
		case 0: rc = vah_insert(txn, key, 2, 1); break;
		case 1: rc = vah_delete(txn, key, 2); break;
		case 2: rc = vah_put(txn, key, 2, (uint64_t)i, NULL, NULL); break;
		case 3: rc = vah_seek(txn, key, 2, &entry); break;
		case 4: rc = vah_scan_refs(txn, "k", 1, "l", 1, refs, 4, &count); break;
		case 5: rc = vah_again(txn); break;
		case 6: rc = vah_commit(txn); break;
		case 7: rc = vah_rollback(txn); break;
		case 8: rc = vah_savepoint(txn, &save); break;
		case 9: rc = vah_roll_to(txn, (uint64_t)i % 4); break;
		default: rc = vah_put(txn, key, 2, (uint64_t)i, NULL, NULL); break;
		}
		HOLDS(rc == VAH_OK || rc == VAH_NOT_FOUND || rc == VAH_EXISTS || rc == VAH_NO_TRANSACTION || rc == VAH_MUST_ROLL_BACK || rc == VAH_ROLLING_BACK
			|| rc == VAH_GIVE_WAY || rc == VAH_BUSY || rc == VAH_DEADLOCK);
	}
	return NULL;
}

static void one_in_several(const char *dir)
{
	enum { THREADS = 4 };
	vah_store *store;
	pthread_t all[THREADS];
	unsigned seeds[THREADS];
	vah_info info;
	atomic_int left = rounds * 30;
	OK(vah_open(dir, NULL, &store));
	for (int i = 0; i < THREADS; i++) {
		seeds[i] = (unsigned)i * 7919;
		if (!i) {
			vah_txn *txn;
			OK(vah_begin(store, &txn));
			atomic_store(&shared, txn);
		}
		HOLDS(!pthread_create(&all[i], NULL, use_shared, &seeds[i]));
	}
	while (atomic_fetch_sub(&left, 1) > 0) { /* a new one each time that the last was ended by somebody */
		vah_txn *txn;
		OK(vah_begin(store, &txn));
		vah_txn *last = atomic_exchange(&shared, txn);
		int rc = vah_rollback(last);
		HOLDS(rc == VAH_OK || rc == VAH_NO_TRANSACTION || rc == VAH_ROLLING_BACK);
		usleep(300);
	}
	for (int i = 0; i < THREADS; i++) pthread_join(all[i], NULL);
	int rc = vah_rollback(atomic_load(&shared));
	HOLDS(rc == VAH_OK || rc == VAH_NO_TRANSACTION);
	OK(vah_stat(store, &info));
	HOLDS(info.active == 0); /* none was begun twice, or lost */
	OK(vah_close(store));
}

/* ---- a close beside threads at work ---- */

enum { WORKERS = 16 };
struct worker { vah_store *store; unsigned seed; atomic_ulong acked; };

/* Puts keys of all in, one after another, until the store is closed; what was told to be kept is counted. */
static void *work(void *arg)
{
	struct worker *w = arg;
	for (;;) {
		vah_txn *txn = NULL;
		int rc = vah_begin(w->store, &txn);
		for (int i = 0; !rc && i < 4; i++) {
			char key[3] = { 'k', (char)('a' + ((w->seed = w->seed * 1664525u + 1013904223u) >> 28)), 0 };
			rc = vah_put(txn, key, 2, w->seed, NULL, NULL);
			if (rc == VAH_GIVE_WAY && !(rc = vah_again(txn))) i = -1;
		}
		uint64_t own = atomic_load(&w->acked) + 1;
		if (!rc) rc = vah_put(txn, &w, sizeof w, own, NULL, NULL);
		if (!rc && !(rc = vah_commit(txn))) {
			atomic_store(&w->acked, own);
			continue;
		}
		if (rc == VAH_CLOSED || rc == VAH_NO_TRANSACTION) break; /* the store is gone, or its closer took the transaction back */
		HOLDS(rc == VAH_GIVE_WAY || rc == VAH_BUSY || rc == VAH_MUST_ROLL_BACK);
		rc = vah_rollback(txn);
		HOLDS(rc == VAH_OK || rc == VAH_NO_TRANSACTION || rc == VAH_INVALID);
		break; /* as a program does that is to end */
	}
	return NULL;
}

static void close_beside(const char *dir)
{
	static struct worker workers[WORKERS];
	pthread_t all[WORKERS];
	vah_store *store;
	vah_txn *txn;
	uint64_t rid;
	int refused = 0;
	OK(vah_open(dir, NULL, &store));
	for (int i = 0; i < WORKERS; i++) {
		workers[i].store = store;
		workers[i].seed = (unsigned)i * 2654435761u;
		atomic_store(&workers[i].acked, 0);
		HOLDS(!pthread_create(&all[i], NULL, work, &workers[i]));
	}
	usleep(15000);
	for (int rc; (rc = vah_close(store)); refused++) {
		IS(rc, VAH_ACTIVE);
		usleep(500);
	}
	for (int i = 0; i < WORKERS; i++) pthread_join(all[i], NULL);
	refuses_store(store, VAH_CLOSED);
	OK(vah_open(dir, NULL, &store));
	OK(vah_begin(store, &txn));
	for (int i = 0; i < WORKERS; i++) {
		struct worker *w = &workers[i];
		int rc = vah_fetch(txn, &w, sizeof w, &rid);
		HOLDS(atomic_load(&w->acked) ? rc == VAH_OK && rid == atomic_load(&w->acked) : rc == VAH_NOT_FOUND);
		if (!rc) OK(vah_delete(txn, &w, sizeof w));
	}
	OK(vah_commit(txn));
	OK(vah_close(store));
}

int main(int argc, char **argv)
{
	char dir[4096];
	if (argc < 2) return 1;
	if (argc > 2) rounds = atoi(argv[2]);
	snprintf(dir, sizeof dir, "%s/every_call", argv[1]);
	every_call(dir);
	snprintf(dir, sizeof dir, "%s/many", argv[1]);
	many_stores(dir);
	snprintf(dir, sizeof dir, "%s/shared", argv[1]);
	one_in_several(dir);
	for (int i = 0; i < rounds; i++) {
		snprintf(dir, sizeof dir, "%s/close", argv[1]);
		close_beside(dir);
	}
	return 0;
}
