/* Puts, steps backward and scans in place, on a table in memory; a put that finds no memory half way; a put that waits. puts FOLDER [STEPS] */
#define _GNU_SOURCE
#include "test.h"
#include <pthread.h>
#include <unistd.h>

enum { KEYS = 300 };
static const char *folder;
static uint64_t seed = 11;
static unsigned chance(unsigned n) { seed = seed * 6364136223846793005u + 1442695040888963407u; return (unsigned)(seed >> 33) % n; }

static vah_store *open_named(const char *name)
{
	char dir[4096];
	vah_config config = VAH_CONFIG_INIT;
	vah_store *store;
	config.frames = 16;
	config.cache_bytes = 0;
	snprintf(dir, sizeof dir, "%.4000s/%s", folder, name);
	OK(vah_open(dir, &config, &store));
	return store;
}

/* ---- on a table ---- */

/* The key of a number: in the numbers' order, of many lengths; the last one is the greatest key of all. */
static size_t key_of(unsigned i, uint8_t *key)
{
	if (i == KEYS - 1) {
		memset(key, 0xff, VAH_KEY_MAX);
		return VAH_KEY_MAX;
	}
	size_t len = (size_t)snprintf((char *)key, 8, "%04u", i);
	memset(key + len, 'x', i * 7 % 250);
	return len + i * 7 % 250;
}

static int64_t now[KEYS]; /* the row id of each key, or -1 */

static void put(vah_txn *txn, unsigned i)
{
	uint8_t key[256];
	size_t len = key_of(i, key);
	uint64_t previous = 77, rid = chance(3);
	int was_there = 77;
	OK(vah_put(txn, key, len, rid, &was_there, &previous));
	HOLDS(was_there == (now[i] >= 0));
	HOLDS(previous == (now[i] >= 0 ? (uint64_t)now[i] : 77));
	now[i] = (int64_t)rid;
}

/* Whether a step backward that was told a code and an entry has found the last key before a number. */
static void is_last_before(unsigned i, int rc, const vah_entry *entry)
{
	uint8_t key[256];
	while (i-- && now[i] < 0) { }
	IS(rc, i < KEYS ? VAH_OK : VAH_NOT_FOUND);
	HOLDS(i >= KEYS || (entry->rid == (uint64_t)now[i] && entry->len == key_of(i, key) && !memcmp(entry->key, key, entry->len)));
}

static void back(vah_txn *txn, unsigned i)
{
	uint8_t key[256];
	size_t len = key_of(i, key);
	vah_entry entry;
	is_last_before(i, vah_prev(txn, key, len, &entry), &entry);
	is_last_before(KEYS, vah_last(txn, &entry), &entry);
}

static void scan(vah_txn *txn, unsigned lo_at, unsigned hi_at)
{
	static vah_ref refs[VAH_SCAN_MAX];
	uint8_t lo[256], hi[256], key[256];
	size_t lo_len = key_of(lo_at, lo), hi_len = key_of(hi_at, hi), max = 1 + chance(300), seen = 0, count;
	OK(vah_scan_refs(txn, lo, lo_len, hi, hi_len, refs, max, &count));
	for (unsigned at = lo_at; at <= hi_at && seen < (max > VAH_SCAN_MAX ? VAH_SCAN_MAX : max); at++)
		if (now[at] >= 0) {
			HOLDS(seen < count && refs[seen].rid == (uint64_t)now[at] && refs[seen].len == key_of(at, key) && !memcmp(refs[seen].key, key, refs[seen].len));
			seen++;
		}
	HOLDS(seen == count);
}

static void delete(vah_txn *txn, unsigned i)
{
	uint8_t key[256];
	size_t len = key_of(i, key);
	IS(vah_delete(txn, key, len), now[i] < 0 ? VAH_NOT_FOUND : VAH_OK);
	now[i] = -1;
}

static void on_a_table(int steps)
{
	vah_store *store = open_named("table");
	vah_txn *txn;
	static int64_t kept[KEYS];
	memset(now, 0xff, sizeof now);
	while (steps > 0) {
		OK(vah_begin(store, &txn));
		memcpy(kept, now, sizeof now);
		for (int s = (int)chance(200); s >= 0; s--, steps--) {
			unsigned i = chance(KEYS), what = chance(6);
			switch (what) {
			case 0: case 1: put(txn, i); break;
			case 2: delete(txn, i); break;
			case 3: scan(txn, i, chance(KEYS)); break;
			default: back(txn, i); break;
			}
		}
		if (chance(3)) {
			OK(vah_commit(txn));
		} else {
			OK(vah_rollback(txn));
			memcpy(now, kept, sizeof now);
		}
	}
	OK(vah_close(store));
}

/* ---- two scans in place ---- */

/* What one transaction was told stands while others are told something else. */
static void in_place(void)
{
	vah_store *store = open_named("place");
	vah_txn *one, *other;
	vah_ref refs[4], others[4];
	vah_entry entry;
	size_t count;
	OK(vah_begin(store, &one));
	OK(vah_put(one, "aa", 2, 1, NULL, NULL));
	OK(vah_put(one, "b", 1, 2, NULL, NULL));
	OK(vah_commit(one));
	OK(vah_begin(store, &one));
	OK(vah_begin(store, &other));
	OK(vah_scan_refs(one, "a", 1, "b", 1, refs, 4, &count));
	HOLDS(count == 2);
	OK(vah_scan_refs(other, "b", 1, "b", 1, others, 4, &count));
	OK(vah_seek(other, "b", 1, &entry));
	HOLDS(count == 1 && others[0].rid == 2 && !memcmp(others[0].key, "b", 1));
	HOLDS(refs[0].len == 2 && !memcmp(refs[0].key, "aa", 2) && refs[0].rid == 1 && refs[1].len == 1 && refs[1].rid == 2 && *refs[1].key == 'b');
	OK(vah_scan_refs(one, "c", 1, "d", 1, refs, 4, &count));
	HOLDS(count == 0);
	IS(vah_scan_refs(one, "a", 1, "b", 1, NULL, 4, &count), VAH_INVALID);
	IS(vah_scan_refs(one, "a", 1, "b", 1, refs, 0, &count), VAH_INVALID);
	IS(vah_scan_refs(one, "a", 1, "b", 1, refs, 4, NULL), VAH_INVALID);
	IS(vah_scan_refs(one, NULL, 1, "b", 1, refs, 4, &count), VAH_INVALID);
	IS(vah_scan_refs(one, "a", 0, "b", 1, refs, 4, &count), VAH_KEY_LENGTH);
	OK(vah_commit(one));
	OK(vah_commit(other));
	OK(vah_close(store));
}

/* ---- a put that is refused ---- */

static void bad_input(vah_txn *txn)
{
	static uint8_t large[300];
	int was_there = 77;
	uint64_t previous = 77;
	IS(vah_put(txn, NULL, 1, 1, &was_there, &previous), VAH_INVALID);
	IS(vah_put(txn, "a", 0, 1, &was_there, &previous), VAH_KEY_LENGTH);
	IS(vah_put(txn, large, 256, 1, &was_there, &previous), VAH_KEY_LENGTH);
	IS(vah_put(txn, large, SIZE_MAX, 1, &was_there, &previous), VAH_KEY_LENGTH);
	IS(vah_last(txn, NULL), VAH_INVALID);
	IS(vah_prev(txn, "a", 1, NULL), VAH_INVALID);
	HOLDS(was_there == 77 && previous == 77);
}

#ifdef VAH_TEST
extern unsigned long vah_test_refused_insert;

/* The first insert of a put finds no memory: nothing was changed. The second does not, after the key was taken out, which is taken back. */
static void without_memory(vah_store *store)
{
	vah_txn *txn;
	uint64_t rid, previous;
	int was_there;
	OK(vah_begin(store, &txn));
	OK(vah_put(txn, "k", 1, 1, &was_there, &previous));
	HOLDS(!was_there);
	OK(vah_commit(txn));
	OK(vah_begin(store, &txn));
	vah_test_refused_insert = 1;
	IS(vah_put(txn, "k", 1, 2, NULL, NULL), VAH_MEMORY);
	OK(vah_fetch(txn, "k", 1, &rid));
	HOLDS(rid == 1);
	vah_test_refused_insert = 2;
	IS(vah_put(txn, "k", 1, 2, NULL, NULL), VAH_MEMORY);
	OK(vah_fetch(txn, "k", 1, &rid));
	HOLDS(rid == 1);
	IS(vah_insert(txn, "k", 1, 3), VAH_EXISTS);
	OK(vah_insert(txn, "j", 1, 3)); /* what else it does is kept */
	OK(vah_commit(txn));
	OK(vah_begin(store, &txn));
	OK(vah_fetch(txn, "j", 1, &rid));
	OK(vah_delete(txn, "j", 1));
	OK(vah_put(txn, "k", 1, 2, &was_there, &previous));
	HOLDS(was_there && previous == 1);
	OK(vah_commit(txn));
}
#endif

/* ---- a put that waits ---- */

struct asked { vah_txn *txn; int rc, was_there; uint64_t previous; };

static void *put_k(void *arg)
{
	struct asked *a = arg;
	a->rc = vah_put(a->txn, "k", 1, 9, &a->was_there, &a->previous);
	return NULL;
}

/* A put that waits for the key itself, or for the next one, changes nothing before it can change all. */
static void waits(vah_store *store)
{
	vah_txn *old, *young;
	struct asked a;
	pthread_t thread;
	uint64_t rid;
	for (int on_next = 0; on_next < 2; on_next++) {
		OK(vah_begin(store, &old));
		OK(vah_put(old, "k", 1, 5, NULL, NULL));
		OK(vah_put(old, "l", 1, 5, NULL, NULL));
		OK(vah_commit(old));
		OK(vah_begin_within(store, 0, 30, &old));
		OK(vah_begin(store, &young));
		if (on_next) OK(vah_fetch(young, "l", 1, &rid)); /* a delete of "k" asks for it */
		else OK(vah_fetch(young, "k", 1, &rid));
		OK(vah_set_wait(old, 30));
		a = (struct asked){ .txn = old };
		HOLDS(!pthread_create(&thread, NULL, put_k, &a));
		pthread_join(thread, NULL);
		IS(a.rc, VAH_BUSY);
		OK(vah_fetch(old, "k", 1, &rid));
		HOLDS(rid == 5);
		OK(vah_set_wait(old, 0));
		HOLDS(!pthread_create(&thread, NULL, put_k, &a));
		usleep(10000);
		OK(vah_commit(young));
		pthread_join(thread, NULL);
		OK(a.rc);
		HOLDS(a.was_there && a.previous == 5);
		OK(vah_commit(old));
		OK(vah_begin(store, &old));
		OK(vah_fetch(old, "k", 1, &rid));
		HOLDS(rid == 9);
		OK(vah_commit(old));
	}
}

int main(int argc, char **argv)
{
	vah_store *store;
	vah_txn *txn;
	if (argc < 2) return 1;
	folder = argv[1];
	on_a_table(argc > 2 ? atoi(argv[2]) : 15000);
	in_place();
	store = open_named("refused");
	OK(vah_begin(store, &txn));
	bad_input(txn);
	OK(vah_rollback(txn));
#ifdef VAH_TEST
	without_memory(store);
#endif
	waits(store);
	OK(vah_close(store));
	return 0;
}
