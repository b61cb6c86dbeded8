/* Savepoints: returns beside a table in memory; what a count counts; bad input; one that gave way; who comes in between; no memory half way, in returns and
 * puts; each call of the device fails in a return. savepoints FOLDER [STEPS] */
#define _GNU_SOURCE
#include "test.h"
#include <pthread.h>
#include <stdatomic.h>
#include <unistd.h>

enum { KEYS = 300 };
static const char *folder;
static uint64_t seed = 5;
static unsigned chance(unsigned n) { seed = seed * 6364136223846793005u + 1442695040888963407u; return (unsigned)(seed >> 33) % n; }

static vah_store *open_named(const char *name)
{
	char dir[4096];
	vah_config config = VAH_CONFIG_INIT;
	vah_store *store;
	config.frames = 16;
	config.cache_bytes = 0;
	snprintf(dir, sizeof dir, "%.4000s/%s", folder, name);
	OK(vah_open(dir, &config, &store));
	return store;
}

static uint64_t count_of(vah_txn *txn)
{
	uint64_t save = 77;
	OK(vah_savepoint(txn, &save));
	return save;
}

/* ---- on a table ---- */

/* The key of a number: of many lengths, so that splits and empty pages come back too. */
static size_t key_of(unsigned i, uint8_t *key)
{
	size_t len = (size_t)snprintf((char *)key, 8, "%04u", i);
	memset(key + len, 'x', i * 7 % 250);
	return len + i * 7 % 250;
}

/* The row ids of all keys, or -1; and as they were at each savepoint that still is one. */
enum { SAVES = 8 };
static int64_t now[KEYS], kept[KEYS], saved[SAVES][KEYS];
static uint64_t saves[SAVES];
static unsigned count;

static void change(vah_txn *txn, unsigned i)
{
	uint8_t key[256];
	size_t len = key_of(i, key);
	uint64_t rid = chance(3), before = count_of(txn), changes = 0;
	switch (chance(3)) {
	case 0:
		IS(vah_insert(txn, key, len, rid), now[i] < 0 ? VAH_OK : VAH_EXISTS);
		changes = now[i] < 0;
		if (now[i] < 0) now[i] = (int64_t)rid;
		break;
	case 1:
		IS(vah_delete(txn, key, len), now[i] < 0 ? VAH_NOT_FOUND : VAH_OK);
		changes = now[i] >= 0;
		now[i] = -1;
		break;
	default:
		OK(vah_put(txn, key, len, rid, NULL, NULL));
		changes = now[i] < 0 ? 1 : now[i] == (int64_t)rid ? 0 : 2;
		now[i] = (int64_t)rid;
		break;
	}
	HOLDS(count_of(txn) == before + changes);
}

static void save(vah_txn *txn)
{
	if (count == SAVES) return;
	OK(vah_savepoint(txn, &saves[count]));
	memcpy(saved[count++], now, sizeof now);
}

/* Returns to one of the savepoints, to the very beginning, or to more changes than there are. */
static void back(vah_txn *txn)
{
	unsigned to = chance(count + 2);
	uint64_t changes = count_of(txn);
	if (to < count) {
		OK(vah_roll_to(txn, saves[to]));
		HOLDS(count_of(txn) == saves[to]);
		memcpy(now, saved[to], sizeof now);
		count = to + 1;
	} else if (to == count) {
		OK(vah_roll_to(txn, 0));
		HOLDS(count_of(txn) == 0);
		memcpy(now, kept, sizeof now);
		count = 0;
	} else {
		OK(vah_roll_to(txn, chance(2) ? UINT64_MAX : changes + chance(2)));
		HOLDS(count_of(txn) == changes);
	}
}

static void is_as_told(vah_txn *txn)
{
	uint8_t key[256];
	for (unsigned i = 0; i < KEYS; i++) {
		uint64_t rid;
		size_t len = key_of(i, key);
		IS(vah_fetch(txn, key, len, &rid), now[i] < 0 ? VAH_NOT_FOUND : VAH_OK);
		HOLDS(now[i] < 0 || rid == (uint64_t)now[i]);
	}
}

static void on_a_table(int steps)
{
	vah_store *store = open_named("table");
	vah_txn *txn;
	memset(now, 0xff, sizeof now);
	while (steps > 0) {
		OK(vah_begin(store, &txn));
		memcpy(kept, now, sizeof now);
		count = 0;
		for (int s = (int)chance(300); s >= 0; s--, steps--) {
			unsigned what = chance(12);
			if (what < 10) change(txn, chance(KEYS));
			else if (what == 10) save(txn);
			else if (!chance(3)) back(txn);
		}
		is_as_told(txn);
		if (chance(3)) {
			OK(vah_commit(txn));
		} else {
			OK(vah_rollback(txn));
			memcpy(now, kept, sizeof now);
		}
		if (!chance(10)) { /* and as an opening finds it */
			OK(vah_close(store));
			store = open_named("table");
		}
	}
	OK(vah_begin(store, &txn));
	is_as_told(txn);
	OK(vah_commit(txn));
	OK(vah_close(store));
}

/* ---- bad input ---- */

/* A number alone, which after a return stands for other changes. */
static void stale(vah_store *store)
{
	vah_txn *txn;
	uint64_t rid;
	OK(vah_begin(store, &txn));
	for (char k = 'a'; k < 'd'; k++) OK(vah_insert(txn, &k, 1, 1));
	uint64_t three = count_of(txn);
	HOLDS(three == 3);
	OK(vah_roll_to(txn, 1));
	OK(vah_roll_to(txn, three));
	HOLDS(count_of(txn) == 1);
	for (char k = 'd'; k < 'h'; k++) OK(vah_insert(txn, &k, 1, 1));
	OK(vah_roll_to(txn, three));
	OK(vah_fetch(txn, "e", 1, &rid));
	IS(vah_fetch(txn, "f", 1, &rid), VAH_NOT_FOUND);
	OK(vah_roll_to(txn, 0));
	OK(vah_commit(txn)); /* of nothing that is left */
	OK(vah_begin(store, &txn));
	IS(vah_fetch(txn, "a", 1, &rid), VAH_NOT_FOUND);
	OK(vah_rollback(txn));
}

static void bad_input(void)
{
	vah_store *store = open_named("bad"), *looks;
	vah_config look = VAH_CONFIG_INIT;
	vah_txn *txn, *older;
	vah_info info;
	uint64_t save = 77, rid;
	char dir[4096];
	OK(vah_begin(store, &txn));
	IS(vah_savepoint(txn, NULL), VAH_INVALID);
	IS(vah_savepoint(NULL, &save), VAH_INVALID);
	IS(vah_roll_to(NULL, 0), VAH_INVALID);
	IS(vah_savepoint((vah_txn *)(void *)store, &save), VAH_INVALID);
	HOLDS(save == 77);
	OK(vah_roll_to(txn, 0));
	OK(vah_roll_to(txn, UINT64_MAX));
	OK(vah_commit(txn));
	IS(vah_savepoint(txn, &save), VAH_NO_TRANSACTION);
	IS(vah_roll_to(txn, 0), VAH_NO_TRANSACTION);
	stale(store);

	/* one that gave way, and has not begun again */
	OK(vah_begin(store, &older));
	OK(vah_begin(store, &txn));
	OK(vah_insert(older, "k", 1, 1));
	OK(vah_insert(txn, "m", 1, 1));
	IS(vah_fetch(txn, "k", 1, &rid), VAH_GIVE_WAY);
	IS(vah_again(txn), VAH_DEADLOCK); /* to one of its own thread */
	IS(vah_savepoint(txn, &save), VAH_MUST_ROLL_BACK);
	IS(vah_roll_to(txn, 0), VAH_MUST_ROLL_BACK);
	OK(vah_rollback(older));
	OK(vah_again(txn));
	HOLDS(count_of(txn) == 0);
	IS(vah_fetch(txn, "m", 1, &rid), VAH_NOT_FOUND);
	OK(vah_rollback(txn));
	HOLDS(save == 77);
	OK(vah_stat(store, &info));
	HOLDS(!info.active && !info.has_failed);
	OK(vah_close(store));
	IS(vah_roll_to(txn, 0), VAH_NO_TRANSACTION);

	/* over files that are only read there is nothing to take back */
	look.read_only = 1;
	snprintf(dir, sizeof dir, "%.4000s/bad", folder);
	OK(vah_open(dir, &look, &looks));
	OK(vah_begin(looks, &txn));
	IS(vah_insert(txn, "a", 1, 1), VAH_READ_ONLY);
	HOLDS(count_of(txn) == 0);
	OK(vah_roll_to(txn, 0));
	OK(vah_commit(txn));
	OK(vah_close(looks));
}

/* ---- beside other transactions ---- */

/* What was taken back stays locked; and one that was told to give way may go on with what stood. */
static void beside(void)
{
	vah_store *store = open_named("beside");
	vah_txn *older, *txn, *younger;
	uint64_t rid, save;
	OK(vah_begin_with(store, VAH_NO_WAIT, &older));
	OK(vah_begin(store, &txn));
	OK(vah_begin(store, &younger));
	OK(vah_insert(older, "0", 1, 1));
	OK(vah_insert(txn, "a", 1, 1));
	OK(vah_savepoint(txn, &save));
	OK(vah_insert(txn, "m", 1, 1));
	OK(vah_roll_to(txn, save));
	IS(vah_insert(older, "m", 1, 1), VAH_BUSY);
	IS(vah_insert(younger, "m", 1, 1), VAH_GIVE_WAY);
	OK(vah_rollback(younger));
	OK(vah_insert(txn, "c", 1, 1));
	IS(vah_fetch(txn, "0", 1, &rid), VAH_GIVE_WAY);
	IS(vah_commit(txn), VAH_MUST_ROLL_BACK);
	OK(vah_savepoint(txn, &rid));
	HOLDS(rid == 2);
	OK(vah_roll_to(txn, save));
	IS(vah_fetch(txn, "c", 1, &rid), VAH_NOT_FOUND);
	OK(vah_put(txn, "a", 1, 5, NULL, NULL));
	OK(vah_commit(txn));
	OK(vah_rollback(older));
	OK(vah_begin(store, &txn));
	OK(vah_fetch(txn, "a", 1, &rid));
	HOLDS(rid == 5);
	IS(vah_fetch(txn, "c", 1, &rid), VAH_NOT_FOUND);
	IS(vah_fetch(txn, "m", 1, &rid), VAH_NOT_FOUND);
	OK(vah_commit(txn));
	OK(vah_close(store));
}

enum { MANY = 5000 };
struct back { vah_txn *txn; uint64_t save; atomic_int has_begun, is_over; int rc; };

static void *go_back(void *arg)
{
	struct back *b = arg;
	atomic_store(&b->has_begun, 1);
	b->rc = vah_roll_to(b->txn, b->save);
	atomic_store(&b->is_over, 1);
	return NULL;
}

/* While a thread takes many changes back others' calls come in between, and none of its own: one that asks for its end gets it. */
static void in_between(int is_ended)
{
	vah_store *store = open_named("between");
	vah_txn *txn, *other;
	struct back b = { .save = 1 };
	pthread_t thread;
	vah_info info;
	uint64_t rid;
	unsigned between = 0, refused = 0;
	OK(vah_begin(store, &other));
	OK(vah_put(other, "other", 5, 7, NULL, NULL));
	OK(vah_commit(other));
	OK(vah_begin(store, &txn));
	for (uint32_t i = 0; i < MANY; i++) OK(vah_insert(txn, &i, 4, i));
	OK(vah_begin(store, &other));
	b.txn = txn;
	HOLDS(!pthread_create(&thread, NULL, go_back, &b));
	while (!atomic_load(&b.has_begun)) { }
	while (!atomic_load(&b.is_over)) {
		OK(vah_fetch(other, "other", 5, &rid));
		between++;
		int rc = vah_fetch(txn, "own", 3, &rid);
		HOLDS(rc == VAH_ROLLING_BACK || rc == VAH_NOT_FOUND || (is_ended && refused && rc == VAH_NO_TRANSACTION));
		if (rc != VAH_ROLLING_BACK) continue;
		refused++;
		rc = is_ended ? vah_rollback(txn) : vah_commit(txn);
		HOLDS(rc == VAH_ROLLING_BACK || rc == VAH_OK || (is_ended && rc == VAH_NO_TRANSACTION));
		if (rc != VAH_ROLLING_BACK) break;
	}
	pthread_join(thread, NULL);
	HOLDS(between > 1 && refused > 0);
	IS(b.rc, is_ended ? VAH_NO_TRANSACTION : VAH_OK);
	if (is_ended) {
		IS(vah_rollback(txn), VAH_NO_TRANSACTION);
	} else {
		int rc = vah_commit(txn);
		HOLDS(rc == VAH_OK || rc == VAH_NO_TRANSACTION);
	}
	OK(vah_rollback(other));
	OK(vah_stat(store, &info));
	HOLDS(info.active == 0);
	OK(vah_begin(store, &txn));
	for (uint32_t i = 0; i < MANY; i += 97) IS(vah_fetch(txn, &i, 4, &rid), i || is_ended ? VAH_NOT_FOUND : VAH_OK);
	if (!is_ended) OK(vah_delete(txn, &(uint32_t){ 0 }, 4));
	OK(vah_commit(txn));
	OK(vah_close(store));
}

/* A transaction whose commit waits for a force, as other threads are in calls, has ended for every other call. */
static vah_txn *_Atomic committing;
static atomic_int is_over;

static void *disturb(void *arg)
{
	(void)arg;
	while (!atomic_load(&is_over)) {
		vah_txn *txn = atomic_load(&committing);
		uint64_t save;
		int rc = vah_savepoint(txn, &save);
		HOLDS(rc == VAH_NO_TRANSACTION || (rc == VAH_OK && save == 1));
		rc = vah_roll_to(txn, 1);
		HOLDS(rc == VAH_NO_TRANSACTION || rc == VAH_OK);
		usleep(50);
	}
	return NULL;
}

static void while_it_waits(int commits)
{
	vah_store *store = open_named("waits");
	vah_txn *txn;
	pthread_t threads[3];
	uint64_t rid;
	OK(vah_begin(store, &txn));
	OK(vah_insert(txn, "k", 1, 0));
	atomic_store(&committing, txn);
	for (int i = 0; i < 3; i++) HOLDS(!pthread_create(&threads[i], NULL, disturb, NULL));
	for (int i = 0; i < commits; i++) {
		OK(vah_commit(txn));
		OK(vah_begin(store, &txn));
		OK(i % 2 ? vah_insert(txn, "k", 1, (uint64_t)i) : vah_delete(txn, "k", 1));
		atomic_store(&committing, txn);
	}
	atomic_store(&is_over, 1);
	for (int i = 0; i < 3; i++) pthread_join(threads[i], NULL);
	OK(vah_commit(txn));
	OK(vah_begin(store, &txn));
	IS(vah_fetch(txn, "k", 1, &rid), commits % 2 ? VAH_NOT_FOUND : VAH_OK);
	OK(vah_commit(txn));
	OK(vah_close(store));
}

#ifdef VAH_TEST
/* ---- no memory half way ---- */

extern unsigned long vah_test_refused_insert, vah_test_refused_continue;

enum { KEPT = 4, BACK = 9 };

/* A transaction that is to return to KEPT changes, and found no memory for the second that it was to take back. */
static vah_txn *half_back(vah_store *store)
{
	vah_txn *txn;
	OK(vah_begin(store, &txn));
	for (uint8_t i = 0; i < KEPT + BACK; i++) OK(vah_insert(txn, &i, 1, i));
	vah_test_refused_continue = 2;
	IS(vah_roll_to(txn, KEPT), VAH_MEMORY);
	return txn;
}

/* Whichever call comes next takes the others back first; and where there is no memory again it is refused so, and the one after it does. */
static int next_call(vah_txn *txn, int which)
{
	static vah_ref refs[VAH_SCAN_MAX];
	static vah_entry entries[VAH_SCAN_MAX];
	uint8_t last = KEPT;
	size_t found = KEPT;
	int rc;
	switch (which) {
	case 0: rc = vah_fetch(txn, &last, 1, NULL); break;
	case 1: rc = vah_insert(txn, &last, 1, 1); return rc ? rc : vah_delete(txn, &last, 1);
	case 2: rc = vah_put(txn, &last, 1, 1, NULL, NULL); return rc ? rc : vah_delete(txn, &last, 1);
	case 3: rc = vah_delete(txn, &last, 1); break;
	case 4: rc = vah_seek(txn, &last, 1, entries); break;
	case 5: rc = vah_last(txn, entries); HOLDS(rc || entries[0].key[0] == KEPT - 1); return rc;
	case 6: rc = vah_scan(txn, "\0", 1, "\377", 1, entries, VAH_SCAN_MAX, &found); HOLDS(found == KEPT); return rc;
	case 7: rc = vah_scan_refs(txn, "\0", 1, "\377", 1, refs, VAH_SCAN_MAX, &found); HOLDS(found == KEPT); return rc;
	case 8: return vah_roll_to(txn, KEPT);
	case 9: return vah_roll_to(txn, UINT64_MAX);
	default: return vah_roll_to(txn, KEPT - 1);
	}
	return rc == VAH_NOT_FOUND ? VAH_OK : rc;
}

static void without_memory(void)
{
	vah_store *store = open_named("memory");
	vah_txn *txn;
	vah_info info;
	vah_entry entry;
	uint64_t rid;
	for (int which = 0; which < 11; which++)
		for (int again = 0; again < 2; again++) {
			txn = half_back(store);
			HOLDS(count_of(txn) == KEPT);
			vah_test_refused_continue = again ? 3 : 0;
			if (again) IS(next_call(txn, which), VAH_MEMORY);
			OK(next_call(txn, which));
			OK(vah_last(txn, &entry));
			HOLDS(entry.key[0] == (which == 10 ? KEPT - 2 : KEPT - 1));
			OK(vah_rollback(txn));
		}
	/* its ends */
	OK(vah_rollback(half_back(store)));
	txn = half_back(store);
	OK(vah_again(txn));
	HOLDS(count_of(txn) == 0);
	IS(vah_last(txn, &entry), VAH_NOT_FOUND);
	OK(vah_rollback(txn));
	txn = half_back(store);
	vah_test_refused_continue = 2;
	IS(vah_commit(txn), VAH_MEMORY);
	OK(vah_set_wait(txn, 5));
	OK(vah_commit(txn));
	OK(vah_begin(store, &txn));
	OK(vah_last(txn, &entry));
	HOLDS(entry.key[0] == KEPT - 1);
	OK(vah_stat(store, &info));
	HOLDS(info.active == 1);

	/* a put that finds no memory for the key that it took out, nor for its return */
	for (unsigned long refused = 0; refused < 2; refused++) {
		vah_test_refused_insert = 2;
		vah_test_refused_continue = refused;
		IS(vah_put(txn, "\1", 1, 9, NULL, NULL), VAH_MEMORY);
		HOLDS(count_of(txn) == 0);
		OK(vah_fetch(txn, "\1", 1, &rid));
		HOLDS(rid == 1);
	}
	OK(vah_put(txn, "\1", 1, 9, NULL, NULL));
	HOLDS(count_of(txn) == 2);
	vah_test_refused_insert = 2;
	IS(vah_put(txn, "\1", 1, 8, NULL, NULL), VAH_MEMORY);
	HOLDS(count_of(txn) == 2);
	OK(vah_commit(txn));
	OK(vah_begin(store, &txn));
	OK(vah_fetch(txn, "\1", 1, &rid));
	HOLDS(rid == 9);
	OK(vah_commit(txn));
	OK(vah_close(store));
}

/* ---- the device fails ---- */

/* A key of 220 bytes, which split pages soon. */
static void wide_key(unsigned i, uint8_t *key)
{
	memset(key, 0, 220);
	key[0] = (uint8_t)(i * 37);
	key[1] = (uint8_t)i;
	key[2] = (uint8_t)(i >> 8);
}

enum { WIDE = 66 };

/* Half of the keys are committed; then all are changed, more is put in, and that is taken back in two returns. Each rest is committed. */
static int turns(const char *dir, unsigned *acked)
{
	vah_config config = VAH_CONFIG_INIT;
	vah_store *store;
	vah_txn *txn;
	uint8_t key[220];
	uint64_t save = 0;
	config.frames = 8;
	config.cache_bytes = 0;
	config.redo_bytes = 200000;
	int rc = vah_open(dir, &config, &store);
	if (rc) return rc;
	for (unsigned turn = 0; !rc && turn < 3; turn++) {
		if ((rc = vah_begin(store, &txn))) break;
		for (unsigned i = 0; !rc && i < WIDE; i++) {
			wide_key(i, key);
			rc = vah_put(txn, key, sizeof key, turn, NULL, NULL);
			if (!rc && i == 1) rc = vah_savepoint(txn, &save);
		}
		for (unsigned i = 0; !rc && i < WIDE; i++) {
			wide_key(i, key);
			rc = i % 3 ? vah_delete(txn, key, sizeof key) : vah_put(txn, key, sizeof key, 99, NULL, NULL);
		}
		if (!rc && turn) rc = vah_roll_to(txn, save + 7);
		if (!rc && turn) rc = vah_roll_to(txn, save);
		if (!rc && !turn) rc = vah_roll_to(txn, WIDE);
		if (rc) vah_rollback(txn);
		else if (!(rc = vah_commit(txn))) *acked = turn + 1;
	}
	int end = vah_close(store);
	return rc ? rc : end;
}

/* What so many turns leave: all keys of the first, of which the others have changed the first two. */
static int is_left(vah_txn *txn, unsigned turns)
{
	uint8_t key[220];
	int there = 1;
	for (unsigned i = 0; i < WIDE; i++) {
		uint64_t rid;
		wide_key(i, key);
		int rc = vah_fetch(txn, key, sizeof key, &rid);
		there &= turns ? !rc && rid == (i < 2 ? turns - 1 : 0) : rc == VAH_NOT_FOUND;
	}
	return there;
}

static void every_call(int step)
{
	int rc = 1, stopped = 0;
	for (int n = 1; rc; n += step) {
		char dir[4096], number[32];
		vah_store *store;
		vah_txn *txn;
		unsigned acked = 0;
		snprintf(dir, sizeof dir, "%.4000s/fails%d", folder, n);
		snprintf(number, sizeof number, "%d", n);
		setenv("VAH_FAIL_AT", number, 1);
		rc = turns(dir, &acked);
		unsetenv("VAH_FAIL_AT");
		HOLDS(!rc || rc == VAH_DEVICE || rc == VAH_FAILED);
		HOLDS(!rc || strstr(vah_last_error(), "(Input/output error)"));
		OK(vah_open(dir, NULL, &store));
		OK(vah_begin(store, &txn));
		HOLDS(is_left(txn, acked) || (rc && acked < 3 && is_left(txn, acked + 1)));
		OK(vah_commit(txn));
		OK(vah_close(store));
		stopped += rc != 0;
	}
	HOLDS(stopped > 60 / step);
}
#endif

int main(int argc, char **argv)
{
	if (argc < 2) return 1;
	int steps = argc > 2 ? atoi(argv[2]) : 30000;
	folder = argv[1];
	on_a_table(steps);
	bad_input();
	beside();
	in_between(0);
	in_between(1);
	while_it_waits(steps / 100);
#ifdef VAH_TEST
	without_memory();
	every_call(steps < 10000 ? 13 : 1);
#endif
	return 0;
}
