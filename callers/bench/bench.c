/* The same work by vahondrisa.h, LMDB and SQLite, keys of 8 bytes. bench vah|lmdb|sqlite FOLDER THREADS [KEYS] prints, for each kind of work, how many a
 * second by the clock, and microseconds of processor each, all threads of the process together. With KEYS, in whole batches of 64, the stores have so many,
 * and 64 MiB of memory each for pages, of which LMDB takes what the system has. */
#define _GNU_SOURCE
#include "vahondrisa.h"
#include "work.h"
#include <lmdb.h>
#include <pthread.h>
#include <sqlite3.h>
#include <string.h>
#include <sys/stat.h>

enum { MOST = 16 };
static const uint64_t last = UINT64_MAX;
static unsigned threads;
static uint64_t keys = KEYS;
static int is_grown;

/* What each of the three does, for one thread: begin, a look-up, an insert, a scan, and the end of a transaction. */
struct user { vah_txn *txn; MDB_txn *mdb; sqlite3 *db; sqlite3_stmt *begin, *write, *end, *get, *put, *scan; unsigned number; };
static vah_store *store;
static MDB_env *env;
static MDB_dbi dbi;

struct calls {
	void (*open)(const char *dir), (*join)(struct user *), (*begin)(struct user *, int writes);
	uint64_t (*get)(struct user *, uint64_t key);
	int (*put)(struct user *, uint64_t key, uint64_t n); /* 0: the transaction begins again */
	unsigned (*scan)(struct user *, uint64_t from);
	void (*end)(struct user *, int writes), (*close)(void);
};
static const struct calls *by;
static char path[4096];

static void vah_open_(const char *dir)
{
	vah_config config = VAH_CONFIG_INIT;
	if (is_grown) config.cache_bytes = 64 << 20;
	OK(vah_open(dir, &config, &store));
}
static void vah_join_(struct user *u) { (void)u; }
static void vah_begin_(struct user *u, int writes) { (void)writes; OK(vah_begin(store, &u->txn)); }
static uint64_t vah_get_(struct user *u, uint64_t key) { uint64_t n; OK(vah_fetch(u->txn, &key, 8, &n)); return n; }
static int vah_put_(struct user *u, uint64_t key, uint64_t n)
{
	int rc = vah_insert(u->txn, &key, 8, n);
	OK(rc == VAH_GIVE_WAY ? vah_again(u->txn) : rc);
	return rc == VAH_OK;
}
static unsigned vah_scan_(struct user *u, uint64_t from)
{
	vah_entry entries[LIMIT];
	size_t count;
	OK(vah_scan(u->txn, &from, 8, &last, 8, entries, LIMIT, &count));
	return (unsigned)count;
}
static void vah_end_(struct user *u, int writes) { (void)writes; OK(vah_commit(u->txn)); }
static void vah_close_(void)
{
	vah_info info;
	OK(vah_stat(store, &info));
	printf("c vah %u in all: %llu restarts, %llu waits\n", threads, (unsigned long long)info.restarts, (unsigned long long)info.waits);
	OK(vah_close(store));
}

static void mdb_open_(const char *dir)
{
	MDB_txn *txn;
	mkdir(dir, 0777);
	OK(mdb_env_create(&env));
	OK(mdb_env_set_mapsize(env, 1u << 30));
	OK(mdb_env_open(env, dir, 0, 0644));
	OK(mdb_txn_begin(env, NULL, 0, &txn));
	OK(mdb_dbi_open(txn, NULL, MDB_CREATE, &dbi));
	OK(mdb_txn_commit(txn));
}
static void mdb_begin_(struct user *u, int writes) { OK(mdb_txn_begin(env, NULL, writes ? 0 : MDB_RDONLY, &u->mdb)); }
static uint64_t mdb_get_(struct user *u, uint64_t key)
{
	MDB_val k = { 8, &key }, v;
	uint64_t n;
	OK(mdb_get(u->mdb, dbi, &k, &v));
	memcpy(&n, v.mv_data, 8);
	return n;
}
static int mdb_put_(struct user *u, uint64_t key, uint64_t n)
{
	MDB_val k = { 8, &key }, v = { 8, &n };
	OK(mdb_put(u->mdb, dbi, &k, &v, MDB_NOOVERWRITE));
	return 1;
}
static unsigned mdb_scan_(struct user *u, uint64_t from)
{
	MDB_cursor *cursor;
	MDB_val k = { 8, &from }, v;
	vah_entry entries[LIMIT];
	unsigned count = 0;
	OK(mdb_cursor_open(u->mdb, dbi, &cursor));
	for (int rc = mdb_cursor_get(cursor, &k, &v, MDB_SET_RANGE); !rc && count < LIMIT; rc = mdb_cursor_get(cursor, &k, &v, MDB_NEXT), count++) {
		memcpy(entries[count].key, k.mv_data, 8);
		memcpy(&entries[count].rid, v.mv_data, 8);
	}
	mdb_cursor_close(cursor);
	return count;
}
static void mdb_end_(struct user *u, int writes)
{
	if (writes) OK(mdb_txn_commit(u->mdb));
	else mdb_txn_abort(u->mdb);
}
static void mdb_close_(void) { mdb_env_close(env); }

static void run(sqlite3_stmt *it) { IS(sqlite3_step(it), SQLITE_DONE); sqlite3_reset(it); }
static void sql_join_(struct user *u)
{
	const char *words[] = { "BEGIN", "BEGIN IMMEDIATE", "COMMIT", "SELECT n FROM t WHERE k = ?", "INSERT INTO t VALUES (?, ?)", "SELECT k, n FROM t WHERE k >= ? ORDER BY k LIMIT 100" };
	sqlite3_stmt **at[] = { &u->begin, &u->write, &u->end, &u->get, &u->put, &u->scan };
	OK(sqlite3_open(path, &u->db));
	sqlite3_busy_timeout(u->db, 60000);
	OK(sqlite3_exec(u->db, "PRAGMA journal_mode=WAL; PRAGMA synchronous=FULL; CREATE TABLE IF NOT EXISTS t(k BLOB PRIMARY KEY, n INTEGER) WITHOUT ROWID", NULL, NULL, NULL));
	if (is_grown) OK(sqlite3_exec(u->db, "PRAGMA cache_size=-65536", NULL, NULL, NULL));
	for (int i = 0; i < 6; i++) OK(sqlite3_prepare_v2(u->db, words[i], -1, at[i], NULL));
}
static void sql_open_(const char *dir) { mkdir(dir, 0777); snprintf(path, sizeof path, "%s/db", dir); }
static void sql_begin_(struct user *u, int writes) { run(writes ? u->write : u->begin); }
static uint64_t sql_get_(struct user *u, uint64_t key)
{
	sqlite3_bind_blob(u->get, 1, &key, 8, SQLITE_STATIC);
	IS(sqlite3_step(u->get), SQLITE_ROW);
	uint64_t n = (uint64_t)sqlite3_column_int64(u->get, 0);
	sqlite3_reset(u->get);
	return n;
}
static int sql_put_(struct user *u, uint64_t key, uint64_t n)
{
	sqlite3_bind_blob(u->put, 1, &key, 8, SQLITE_STATIC);
	sqlite3_bind_int64(u->put, 2, (sqlite3_int64)n);
	run(u->put);
	return 1;
}
static unsigned sql_scan_(struct user *u, uint64_t from)
{
	vah_entry entries[LIMIT];
	unsigned count = 0;
	sqlite3_bind_blob(u->scan, 1, &from, 8, SQLITE_STATIC);
	for (; sqlite3_step(u->scan) == SQLITE_ROW; count++) {
		memcpy(entries[count].key, sqlite3_column_blob(u->scan, 0), 8);
		entries[count].rid = (uint64_t)sqlite3_column_int64(u->scan, 1);
	}
	sqlite3_reset(u->scan);
	return count;
}
static void sql_end_(struct user *u, int writes) { (void)writes; run(u->end); }
static void sql_close_(void) { }

static const struct calls all[] = {
	{ vah_open_, vah_join_, vah_begin_, vah_get_, vah_put_, vah_scan_, vah_end_, vah_close_ },
	{ mdb_open_, vah_join_, mdb_begin_, mdb_get_, mdb_put_, mdb_scan_, mdb_end_, mdb_close_ },
	{ sql_open_, sql_join_, sql_begin_, sql_get_, sql_put_, sql_scan_, sql_end_, sql_close_ },
};

/* ---- the work of one thread: its part of all ---- */

static void *inserts_64(void *arg)
{
	struct user *u = arg;
	for (uint64_t i = u->number * 64; i < keys; i += 64 * threads) {
		by->begin(u, 1);
		for (uint64_t j = i; j < i + 64; ) j = by->put(u, mix(j), j) ? j + 1 : i;
		by->end(u, 1);
	}
	return NULL;
}
static void *inserts_1(void *arg)
{
	struct user *u = arg;
	for (uint64_t i = u->number; i < COMMITS; i += threads) {
		by->begin(u, 1);
		while (!by->put(u, mix((1u << 30) + i), i)) ;
		by->end(u, 1);
	}
	return NULL;
}
static void *look_ups(void *arg)
{
	struct user *u = arg;
	for (uint64_t i = u->number * 100; i < READS; i += 100 * threads) {
		by->begin(u, 0);
		for (uint64_t j = i; j < i + 100; j++) {
			uint64_t wanted = mix(j * 7) % keys;
			if (by->get(u, mix(wanted)) != wanted) exit(2);
		}
		by->end(u, 0);
	}
	return NULL;
}
static void *scans(void *arg)
{
	struct user *u = arg;
	for (uint64_t i = u->number; i < SCANS; i += threads) {
		by->begin(u, 0);
		by->scan(u, mix(i));
		by->end(u, 0);
	}
	return NULL;
}

int main(int argc, char **argv)
{
	if (argc > 4) {
		keys = strtoull(argv[4], NULL, 10) / 64 * 64;
		is_grown = 1;
	}
	struct { const char *name; void *(*work)(void *); double count; } works[] = {
		{ "inserts, 64 a commit", inserts_64, (double)keys }, { "inserts, 1 a commit", inserts_1, COMMITS },
		{ "look-ups, 100 a transaction", look_ups, READS }, { "scans of 100", scans, SCANS } };
	const char *names[] = { "vah", "lmdb", "sqlite" };
	static struct user users[MOST];
	pthread_t running[MOST];
	if (argc < 4 || (threads = (unsigned)atoi(argv[3])) < 1 || threads > MOST) return 1;
	for (int i = 0; i < 3; i++) if (!strcmp(argv[1], names[i])) by = &all[i];
	if (!by) return 1;
	by->open(argv[2]);
	for (unsigned i = 0; i < threads; i++) { users[i].number = i; by->join(&users[i]); }
	for (size_t w = 0; w < sizeof works / sizeof *works; w++) {
		double wall = on(CLOCK_MONOTONIC), processor = on(CLOCK_PROCESS_CPUTIME_ID);
		for (unsigned i = 0; i < threads; i++) OK(pthread_create(&running[i], NULL, works[w].work, &users[i]));
		for (unsigned i = 0; i < threads; i++) pthread_join(running[i], NULL);
		tell(argv[1], threads, works[w].name, works[w].count, wall, processor);
	}
	by->close();
	return 0;
}
