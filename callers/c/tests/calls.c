/* Bad input, the same calls on a table in memory, how much an opening redoes, memory for more pages, threads that share a store, a thread that would wait for
 * itself, and signals. */
#define _GNU_SOURCE
#include "test.h"
#include <errno.h>
#include <pthread.h>
#include <stdatomic.h>
#include <signal.h>
#include <sys/stat.h>
#include <sys/time.h>
#include <sys/wait.h>
#include <unistd.h>

/* ---- bad input ---- */

/* Each call by a key is refused one alike, and a scan whichever bound it is. */
static void by_key(vah_txn *txn, const void *key, size_t len, int code)
{
	vah_entry entry;
	uint64_t n;
	size_t count;
	IS(vah_fetch(txn, key, len, &n), code);
	IS(vah_insert(txn, key, len, 1), code);
	IS(vah_delete(txn, key, len), code);
	IS(vah_seek(txn, key, len, &entry), code);
	IS(vah_next(txn, key, len, &entry), code);
	IS(vah_scan(txn, key, len, "b", 1, &entry, 1, &count), code);
	IS(vah_scan(txn, "a", 1, key, len, &entry, 1, &count), code);
}

static void refusals(const char *dir)
{
	static uint8_t large[300], hi[255];
	static char too_long[6000];
	struct { vah_config known; uint64_t later; } longer = { VAH_CONFIG_INIT, 0 };
	vah_config config = VAH_CONFIG_INIT;
	vah_store *store = NULL, *other = NULL;
	vah_txn *txn, *old, *txns[64];
	vah_entry entries[2];
	vah_info info;
	uint64_t n;
	size_t count;

	IS(vah_open(NULL, NULL, &store), VAH_INVALID);
	IS(vah_open(dir, NULL, NULL), VAH_INVALID);
	IS(vah_open("", NULL, &store), VAH_DEVICE);
	for (size_t i = 0; i + 1 < sizeof too_long; i++) too_long[i] = i % 2 ? '/' : 'a';
	IS(vah_open(too_long, NULL, &store), VAH_DEVICE);
	HOLDS(errno == ENAMETOOLONG && access("a", F_OK)); /* and not one of its folders is made */
	config.size = 8;
	IS(vah_open(dir, &config, &store), VAH_INVALID);
	config.size = SIZE_MAX;
	IS(vah_open(dir, &config, &store), VAH_INVALID);
	config = (vah_config)VAH_CONFIG_INIT;
	config.frames = 7;
	IS(vah_open(dir, &config, &store), VAH_POOL_SIZE);
	config.frames = 1025;
	IS(vah_open(dir, &config, &store), VAH_POOL_SIZE);
	for (int i = 0; i < 2; i++) {
		config = (vah_config)VAH_CONFIG_INIT;
		config.cache_bytes = i ? VAH_CACHE_FITS - 1 : (UINT64_C(1020) << 20) + 4096;
		IS(vah_open(dir, &config, &store), VAH_POOL_SIZE);
		HOLDS(!store && strstr(vah_last_error(), "cache_bytes"));
	}
	for (int i = 0; i < 2; i++) { /* configs of the first version, and of the one before cache_bytes */
		config = (vah_config)VAH_CONFIG_INIT;
		config.size = i ? offsetof(vah_config, cache_bytes) : offsetof(vah_config, log_bytes);
		config.cache_bytes = VAH_CACHE_FITS - 1; /* not read */
		OK(vah_open(dir, &config, &store));
		OK(vah_close(store));
	}
	store = NULL;
	longer.known.size = sizeof longer;
	longer.later = 1;
	IS(vah_open(dir, &longer.known, &store), VAH_INVALID);
	longer.later = 0;
	OK(vah_open(dir, &longer.known, &store));
	IS(vah_open(dir, NULL, &other), VAH_LOCKED);
	HOLDS(!other && strstr(vah_last_error(), "the store is open elsewhere"));

	IS(vah_begin(NULL, &txn), VAH_INVALID);
	IS(vah_begin(store, NULL), VAH_INVALID);
	for (unsigned flags = 2; flags; flags <<= 1) {
		IS(vah_begin_with(store, flags, &txn), VAH_INVALID);
		IS(vah_begin_with(store, flags | VAH_NO_WAIT, &txn), VAH_INVALID);
	}
	IS(vah_commit(NULL), VAH_INVALID);
	OK(vah_rollback(NULL));
	OK(vah_close(NULL));
	IS(vah_again(NULL), VAH_INVALID);
	IS(vah_stat(store, NULL), VAH_INVALID);
	IS(vah_stat(NULL, &info), VAH_INVALID);
	IS(vah_checkpoint(NULL), VAH_INVALID);
	IS(vah_switch(NULL), VAH_INVALID);
	IS(vah_flush(NULL), VAH_INVALID);

	OK(vah_begin(store, &txn));
	by_key(NULL, "a", 1, VAH_INVALID);
	by_key(txn, NULL, 1, VAH_INVALID);
	by_key(txn, NULL, 0, VAH_KEY_LENGTH);
	by_key(txn, "a", 0, VAH_KEY_LENGTH);
	by_key(txn, large, 256, VAH_KEY_LENGTH);
	by_key(txn, large, 300, VAH_KEY_LENGTH);
	by_key(txn, large, SIZE_MAX, VAH_KEY_LENGTH);
	IS(vah_seek(txn, "a", 1, NULL), VAH_INVALID);
	IS(vah_next(txn, "a", 1, NULL), VAH_INVALID);
	IS(vah_scan(txn, "a", 1, "b", 1, NULL, 2, &count), VAH_INVALID);
	IS(vah_scan(txn, "a", 1, "b", 1, entries, 0, &count), VAH_INVALID);
	IS(vah_scan(txn, "a", 1, "b", 1, entries, 2, NULL), VAH_INVALID);
	OK(vah_insert(txn, large, 255, UINT64_MAX));
	OK(vah_fetch(txn, large, 255, &n));
	HOLDS(n == UINT64_MAX);
	OK(vah_fetch(txn, large, 255, NULL));
	memset(hi, 255, sizeof hi);
	OK(vah_insert(txn, hi, 255, 0));
	OK(vah_scan(txn, large, 1, hi, 255, entries, 2, &count));
	HOLDS(count == 2 && entries[0].len == 255 && !memcmp(entries[0].key, large, 255) && entries[1].key[254] == 255);
	OK(vah_scan(txn, hi, 255, large, 1, entries, 2, &count));
	HOLDS(count == 0);
	IS(vah_close(store), VAH_ACTIVE);
	IS(vah_switch(store), VAH_ACTIVE);
	OK(vah_stat(store, &info));
	HOLDS(info.active == 1 && !info.has_failed);
	OK(vah_commit(txn));
	OK(vah_switch(store));
	OK(vah_stat(store, &info));
	HOLDS(!info.active && !info.dirty_pages && !info.has_failed);

	/* one thread with two transactions: the older would wait for the younger, and the younger must give way */
	OK(vah_begin_with(store, VAH_NO_WAIT, &old));
	OK(vah_begin(store, &txn));
	OK(vah_insert(txn, "k", 1, 1));
	IS(vah_insert(old, "k", 1, 2), VAH_BUSY);
	OK(vah_insert(old, "m", 1, 2));
	IS(vah_fetch(txn, "m", 1, &n), VAH_GIVE_WAY);
	IS(vah_commit(txn), VAH_MUST_ROLL_BACK);
	IS(vah_insert(txn, "o", 1, 1), VAH_MUST_ROLL_BACK);
	OK(vah_rollback(txn));
	OK(vah_insert(old, "k", 1, 2));
	OK(vah_begin_with(store, VAH_NO_WAIT, &txn));
	IS(vah_fetch(txn, "k", 1, &n), VAH_GIVE_WAY);
	OK(vah_again(txn)); /* which does not wait */
	IS(vah_fetch(txn, "k", 1, &n), VAH_GIVE_WAY);
	OK(vah_rollback(old));
	OK(vah_again(txn));
	IS(vah_fetch(txn, "k", 1, &n), VAH_NOT_FOUND);
	OK(vah_rollback(txn));

	for (int i = 0; i < 64; i++) OK(vah_begin(store, &txns[i]));
	IS(vah_begin_with(store, VAH_NO_WAIT, &txn), VAH_TOO_MANY);
	IS(vah_begin(store, &txn), VAH_DEADLOCK); /* this thread has them all */
	for (int i = 0; i < 64; i++) OK(vah_commit(txns[i]));
	OK(vah_close(store));
	IS(vah_open("/proc/none/here", NULL, &store), VAH_DEVICE);
	for (int i = -1; i < 130; i++) HOLDS(vah_strerror(i)[0]);
	HOLDS(vah_version() == VAH_VERSION);
}

/* ---- the same calls on a table ---- */

enum { KEYS = 600 };
static uint64_t seed = 7;
static unsigned chance(unsigned n) { seed = seed * 6364136223846793005u + 1442695040888963407u; return (unsigned)(seed >> 33) % n; }

/* The key of a number: four digits, and a tail whose length is the number's own, so that keys of a number's order are in that order. */
static size_t key_of(unsigned i, char *key)
{
	size_t len = (size_t)snprintf(key, 8, "%04u", i);
	memset(key + len, 'x', i * 7 % 250);
	return len + i * 7 % 250;
}

static void on_a_table(const char *dir, int steps)
{
	static int64_t kept[KEYS], now[KEYS]; /* the number of each key, or -1 */
	static vah_entry entries[VAH_SCAN_MAX];
	vah_config config = VAH_CONFIG_INIT;
	vah_store *store;
	vah_txn *txn;
	vah_entry entry;
	char key[256], hi[256];
	uint64_t n;
	size_t count;
	config.frames = 16;
	config.redo_bytes = 1 << 20;
	config.log_bytes = 1 << 20;
	memset(kept, 0xff, sizeof kept);
	OK(vah_open(dir, &config, &store));
	for (int life = 0; steps > 0; life++) {
		OK(vah_begin(store, &txn));
		memcpy(now, kept, sizeof kept);
		for (int s = (int)chance(400); s >= 0; s--, steps--) {
			unsigned i = chance(KEYS), j = chance(KEYS), what = chance(9);
			size_t len = key_of(i, key), hi_len = key_of(j, hi);
			unsigned at = i;
			switch (what) {
			case 0: case 1: case 2: case 3:
				IS(vah_insert(txn, key, len, i + (unsigned)life), now[i] < 0 ? VAH_OK : VAH_EXISTS);
				if (now[i] < 0) now[i] = i + life;
				break;
			case 4: case 5:
				IS(vah_delete(txn, key, len), now[i] < 0 ? VAH_NOT_FOUND : VAH_OK);
				now[i] = -1;
				break;
			case 6:
				IS(vah_fetch(txn, key, len, &n), now[i] < 0 ? VAH_NOT_FOUND : VAH_OK);
				HOLDS(now[i] < 0 || n == (uint64_t)now[i]);
				break;
			case 7: {
				int is_next = (int)chance(2);
				for (at += is_next; at < KEYS && now[at] < 0; at++) ;
				IS(is_next ? vah_next(txn, key, len, &entry) : vah_seek(txn, key, len, &entry), at < KEYS ? VAH_OK : VAH_NOT_FOUND);
				HOLDS(at == KEYS || (entry.rid == (uint64_t)now[at] && entry.len == key_of(at, key) && !memcmp(entry.key, key, entry.len)));
				break;
			}
			default: {
				size_t max = 1 + chance(300), most = max > VAH_SCAN_MAX ? VAH_SCAN_MAX : max, seen = 0;
				OK(vah_scan(txn, key, len, hi, hi_len, entries, max, &count));
				for (at = i; at <= j && seen < most; at++)
					if (now[at] >= 0) {
						HOLDS(seen < count && entries[seen].rid == (uint64_t)now[at] && entries[seen].len == key_of(at, key)
							&& !memcmp(entries[seen].key, key, entries[seen].len));
						seen++;
					}
				HOLDS(seen == count);
			}
			}
		}
		if (chance(4)) {
			OK(vah_commit(txn));
			memcpy(kept, now, sizeof kept);
		} else {
			OK(vah_rollback(txn));
		}
		switch (chance(12)) {
		case 0: OK(vah_checkpoint(store)); break;
		case 1: OK(vah_flush(store)); break;
		case 2:
			OK(vah_close(store));
			config.cache_bytes = life % 2 ? 0 : VAH_CACHE_FITS;
			OK(vah_open(dir, &config, &store));
			break;
		case 3: OK(vah_switch(store)); break;
		}
	}
	OK(vah_close(store));
}

/* ---- the bounds of redo and of the log ---- */

/* The length of a file of a store. */
static long long length_of(const char *dir, const char *name)
{
	char at[4200];
	struct stat stat_of;
	snprintf(at, sizeof at, "%.4000s/%s", dir, name);
	return stat(at, &stat_of) ? -1 : (long long)stat_of.st_size;
}

/* One key is put in and taken out until the log has had more than 32 MiB, and the program ends there. Returns how much of it the next opening reads for redo:
 * nothing of a log without a record, of which redo_from is 0. */
static uint64_t redone_of(const char *dir, uint64_t redo_bytes, uint64_t log_bytes)
{
	vah_config config = VAH_CONFIG_INIT;
	vah_store *store;
	vah_txn *txn;
	vah_info info = { 0 };
	char key[VAH_KEY_MAX];
	int status;
	HOLDS(config.redo_bytes == VAH_REDO_GROWS && config.log_bytes == VAH_LOG_GROWS);
	config.redo_bytes = redo_bytes;
	config.log_bytes = log_bytes;
	memset(key, 'k', sizeof key);
	pid_t child = fork();
	if (child == 0) {
		OK(vah_open(dir, &config, &store));
		while (info.durable_end <= 32 << 20) {
			OK(vah_begin(store, &txn));
			for (int i = 0; i < 5000; i++) {
				OK(vah_insert(txn, key, sizeof key, 1));
				OK(vah_delete(txn, key, sizeof key));
			}
			OK(vah_commit(txn));
			OK(vah_stat(store, &info));
		}
		_exit(0);
	}
	HOLDS(child > 0 && waitpid(child, &status, 0) == child && WIFEXITED(status) && WEXITSTATUS(status) == 0);
	OK(vah_open(dir, &config, &store));
	OK(vah_stat(store, &info));
	OK(vah_close(store));
	return info.redo_from || info.redone ? info.durable_end - info.redo_from : 0;
}

/* The file of pages is short, so what grows with it is 16 MiB, and 64 MiB of log. A transaction logs some 3 MiB here, and within it nothing is switched. */
static void bounds(const char *dir)
{
	char at[4096];
	snprintf(at, sizeof at, "%.4000s/any", dir);
	HOLDS(redone_of(at, 0, 0) > 32 << 20);
	HOLDS(length_of(at, "log") > 32 << 20);
	snprintf(at, sizeof at, "%.4000s/grows", dir);
	HOLDS(redone_of(at, VAH_REDO_GROWS, VAH_LOG_GROWS) <= 16 << 20);
	snprintf(at, sizeof at, "%.4000s/little", dir);
	HOLDS(redone_of(at, 4 << 20, 0) <= 4 << 20);
	snprintf(at, sizeof at, "%.4000s/short", dir);
	HOLDS(redone_of(at, 0, 4 << 20) <= 8 << 20);
	HOLDS(length_of(at, "log") <= 8 << 20 && length_of(at, "log2") <= 8 << 20);
}

/* Puts keys in, 100 a transaction, and looks each up. */
static void put_keys(vah_store *store, unsigned from, unsigned to)
{
	vah_txn *txn = NULL;
	char key[8];
	uint64_t n;
	for (unsigned i = from; i < to; i++) {
		if (i % 100 == 0) OK(vah_begin(store, &txn));
		snprintf(key, sizeof key, "k%06u", i);
		OK(vah_insert(txn, key, 7, i));
		OK(vah_fetch(txn, key, 7, &n));
		if (i % 100 == 99) OK(vah_commit(txn));
	}
}

/* A Switch is due for 10^5 steps while a transaction stays open: the logs grow past their bound until it has ended, and no more after that. */
static void long_open(const char *dir)
{
	vah_config config = VAH_CONFIG_INIT;
	vah_store *store;
	vah_txn *old, *txn;
	uint64_t n;
	char key[8];
	config.log_bytes = 1 << 20;
	OK(vah_open(dir, &config, &store));
	OK(vah_begin(store, &old)); /* `b` keeps the locks of `a` apart from those of the other keys */
	OK(vah_insert(old, "b", 1, 7));
	OK(vah_commit(old));
	OK(vah_begin(store, &old));
	OK(vah_insert(old, "a", 1, 7));
	put_keys(store, 0, 50000);
	long long log = length_of(dir, "log"), log2 = length_of(dir, "log2"), longest = log > log2 ? log : log2;
	HOLDS(longest > 3 << 20);
	OK(vah_commit(old));
	put_keys(store, 50000, 150000);
	log = length_of(dir, "log");
	log2 = length_of(dir, "log2");
	HOLDS(log <= longest + (1 << 20) && log2 <= longest + (1 << 20) && (log < 4 << 20 || log2 < 4 << 20));
	OK(vah_close(store));
	OK(vah_open(dir, &config, &store));
	OK(vah_begin(store, &txn));
	OK(vah_fetch(txn, "a", 1, &n));
	HOLDS(n == 7);
	for (unsigned i = 0; i < 150000; i++) {
		snprintf(key, sizeof key, "k%06u", i);
		OK(vah_fetch(txn, key, 7, &n));
		HOLDS(n == i);
	}
	OK(vah_commit(txn));
	OK(vah_close(store));
}

/* ---- memory for more pages ---- */

/* Looks all keys up twice in a pool of 8 frames and so many bytes more: how many pages the second round reads. Without keys they are put in first. */
static uint64_t read_again(const char *dir, uint64_t cache_bytes, int has_keys)
{
	vah_config config = VAH_CONFIG_INIT;
	vah_info before = { 0 }, after = { 0 };
	vah_store *store;
	vah_txn *txn;
	char key[200];
	uint64_t n;
	config.frames = 8;
	config.cache_bytes = cache_bytes;
	memset(key, 'k', sizeof key);
	OK(vah_open(dir, &config, &store));
	for (int round = has_keys ? 0 : -1; round < 2; round++) {
		OK(vah_stat(store, &before));
		OK(vah_begin(store, &txn));
		for (unsigned i = 0; i < 1000; i++) {
			snprintf(key, 5, "%04u", i);
			if (round < 0) {
				OK(vah_insert(txn, key, sizeof key, i));
				continue;
			}
			OK(vah_fetch(txn, key, sizeof key, &n));
			HOLDS(n == i);
		}
		OK(vah_commit(txn));
		OK(vah_stat(store, &after));
	}
	OK(vah_close(store));
	return after.page_reads - before.page_reads;
}

/* The keys take more than 50 pages. A file that has none yet has room for none more, and less than a page is no room for one. */
static void cache(const char *dir)
{
	HOLDS(read_again(dir, VAH_CACHE_FITS, 0) > 50);
	HOLDS(read_again(dir, VAH_CACHE_FITS, 1) == 0);
	HOLDS(read_again(dir, 0, 1) > 50);
	HOLDS(read_again(dir, 4095, 1) > 50);
	HOLDS(read_again(dir, 1 << 20, 1) == 0);
}

/* ---- threads ---- */

struct work { vah_store *store; int number; };

/* Moves 1 from one of eight accounts to another, again and again; their sum stays. */
static void *move(void *arg)
{
	struct work *work = arg;
	unsigned mix = (unsigned)work->number * 2654435761u;
	for (int i = 0; i < 60; i++) {
		vah_txn *txn;
		unsigned from = (mix = mix * 1664525u + 1013904223u) >> 29, to = (mix = mix * 1664525u + 1013904223u) >> 29;
		if (from == to) continue;
		char a[2] = { 'n', (char)('0' + from) }, b[2] = { 'n', (char)('0' + to) };
		OK(vah_begin(work->store, &txn));
		for (;;) {
			uint64_t n, m;
			int rc = vah_fetch(txn, a, 2, &n);
			if (!rc) rc = vah_delete(txn, a, 2);
			if (!rc) rc = vah_insert(txn, a, 2, n - 1);
			if (!rc) rc = vah_fetch(txn, b, 2, &m);
			if (!rc) rc = vah_delete(txn, b, 2);
			if (!rc) rc = vah_insert(txn, b, 2, m + 1);
			if (!rc) { OK(vah_commit(txn)); break; }
			IS(rc, VAH_GIVE_WAY);
			OK(vah_again(txn));
		}
		if (i % 20 == 0) OK(vah_checkpoint(work->store));
	}
	return NULL;
}

static atomic_int fired;
static void on_alarm(int signal) { (void)signal; atomic_fetch_add(&fired, 1); }

static void threads(const char *dir)
{
	struct itimerval often = { { 0, 700 }, { 0, 700 } }, none = { { 0, 0 }, { 0, 0 } };
	struct sigaction action = { .sa_handler = on_alarm };
	sigset_t alarm;
	vah_store *store;
	vah_txn *txn;
	vah_entry entries[16];
	pthread_t all[6];
	struct work works[6];
	size_t count;
	uint64_t sum = 0;
	OK(vah_open(dir, NULL, &store));
	OK(vah_begin(store, &txn));
	for (char i = '0'; i < '8'; i++) OK(vah_insert(txn, (char[2]){ 'n', i }, 2, 1000));
	OK(vah_commit(txn));
	sigaction(SIGALRM, &action, NULL);
	setitimer(ITIMER_REAL, &often, NULL);
	for (int i = 0; i < 6; i++) {
		works[i] = (struct work){ store, i };
		HOLDS(!pthread_create(&all[i], NULL, move, &works[i]));
	}
	/* so that signals come to threads within calls, and interrupt what they wait for */
	sigemptyset(&alarm);
	sigaddset(&alarm, SIGALRM);
	pthread_sigmask(SIG_BLOCK, &alarm, NULL);
	for (int i = 0; i < 6; i++) pthread_join(all[i], NULL);
	setitimer(ITIMER_REAL, &none, NULL);
	HOLDS(fired > 0);
	OK(vah_begin(store, &txn));
	OK(vah_scan(txn, "n", 1, "nz", 2, entries, 16, &count));
	OK(vah_commit(txn));
	for (size_t i = 0; i < count; i++) sum += entries[i].rid;
	HOLDS(count == 8 && sum == 8000);
	OK(vah_close(store));
}

/* ---- keys of names ---- */

static void keys_of_names(void)
{
	static const uint8_t large[300] = { 1 };
	uint8_t key[VAH_KEY_MAX], other[VAH_KEY_MAX];
	size_t len, front, size;
	uint64_t rid;
	vah_reading reading = { 0, 0, 0 };
	OK(vah_name_key(VAH_NAME_ENTRY, "by_city", 7, "oslo", 4, key, &len));
	HOLDS(len == 12 && !memcmp(key, "\7by_cityoslo", 12));
	OK(vah_name_key(VAH_NAME_FIRST, NULL, 0, NULL, 0, key, &len));
	HOLDS(len == 1 && !key[0]);
	for (size_t more = 1; more; more *= 2) {
		IS(vah_name_key(VAH_NAME_ENTRY, "by_city", 7, large, 246 + more, key, &len), VAH_KEY_LENGTH);
		IS(vah_name_key(VAH_NAME_ROW, large, 31 + more, NULL, 0, key, &len), VAH_KEY_LENGTH);
	}
	IS(vah_name_key(VAH_NAME_PARTS_END + 1, "n", 1, "k", 1, key, &len), VAH_INVALID);
	IS(vah_name_key(VAH_NAME_ROW, NULL, 1, "k", 1, key, &len), VAH_INVALID);
	IS(vah_name_key(VAH_NAME_ENTRY, "n", 1, NULL, 1, key, &len), VAH_INVALID);
	IS(vah_name_key(VAH_NAME_ROW, "n", 1, "k", 1, NULL, &len), VAH_INVALID);
	IS(vah_name_key(VAH_NAME_ROW, "n", 1, "k", 1, key, NULL), VAH_INVALID);

	OK(vah_name_key(VAH_NAME_PARTS, "notes", 5, "a\0b", 3, key, &front));
	IS(vah_long_part(key, front, "abc", 3, 1, &len, &rid), VAH_NOT_FOUND);
	IS(vah_long_part(key, front, "abc", SIZE_MAX, 0, &len, &rid), VAH_INVALID);
	IS(vah_long_part(key, 220, "abc", 3, 0, &len, &rid), VAH_INVALID);
	IS(vah_long_part(NULL, front, "abc", 3, 0, &len, &rid), VAH_INVALID);
	IS(vah_long_part(key, front, NULL, 3, 0, &len, &rid), VAH_INVALID);
	IS(vah_long_part(key, front, "abc", 3, 0, NULL, &rid), VAH_INVALID);
	IS(vah_long_part(key, front, "abc", 3, 0, &len, NULL), VAH_INVALID);
	OK(vah_long_part(key, front, NULL, 0, 0, &len, &rid));
	HOLDS(front == 11 && len == 14 && !rid);
	OK(vah_long_part(key, front, "abc", 3, 0, &len, &rid));
	HOLDS(len == 17 && rid == 3 && !memcmp(key + 11, "\0\0\0abc", 6));

	OK(vah_long_key(key, len, other, &size, &front));
	HOLDS(size == 3 && front == 11 && !memcmp(other, "a\0b", 3));
	IS(vah_long_key(key, 6, other, &size, &front), VAH_INVALID);
	IS(vah_long_key(NULL, 6, other, &size, &front), VAH_INVALID);
	IS(vah_long_key(large, 256, other, &size, &front), VAH_INVALID);

	OK(vah_long_read(&reading, 11, key, len, rid));
	HOLDS(reading.number == 1 && !reading.left && !reading.is_half);
	IS(vah_long_read(&reading, 11, key, len, rid), VAH_INVALID);
	HOLDS(reading.is_half == 1);
	IS(vah_long_read(NULL, 11, key, len, rid), VAH_INVALID);
	IS(vah_long_read(&reading, 11, NULL, len, rid), VAH_INVALID);
}

int main(int argc, char **argv)
{
	char dir[4096];
	if (argc < 2) return 1;
	keys_of_names();
	snprintf(dir, sizeof dir, "%s/deep/refusals", argv[1]);
	refusals(dir);
	snprintf(dir, sizeof dir, "%s/table", argv[1]);
	on_a_table(dir, argc > 2 ? atoi(argv[2]) : 20000);
	snprintf(dir, sizeof dir, "%s/bounds", argv[1]);
	bounds(dir);
	snprintf(dir, sizeof dir, "%s/long_open", argv[1]);
	long_open(dir);
	snprintf(dir, sizeof dir, "%s/cache", argv[1]);
	cache(dir);
	snprintf(dir, sizeof dir, "%s/threads", argv[1]);
	threads(dir);
	return 0;
}
