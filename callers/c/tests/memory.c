/* Requests for memory of a life are refused in turn, with caches of several sizes; what is refused for want of memory is asked again, and then the store is opened
 * again. memory FOLDER [each]: with that word each request, and else the first and the last of a life, and 50 between. */
#include "life.h"

void *__libc_malloc(size_t size);
void *__libc_realloc(void *old, size_t size);
void *__libc_calloc(size_t count, size_t size);

/* the request that is refused, counted from 1, and how many came */
static long refused, came;

static int is_refused(void) { return ++came == refused; }
void *malloc(size_t size) { return is_refused() ? NULL : __libc_malloc(size); }
void *realloc(void *old, size_t size) { return is_refused() ? NULL : __libc_realloc(old, size); }
void *calloc(size_t count, size_t size) { return is_refused() ? NULL : __libc_calloc(count, size); }

/* Frames beside the cache, and the frames that this is a cache of. */
static const struct { uint32_t frames; uint64_t more; } POOLS[] = { { 8, 0 }, { 8, 8 }, { 1024, 1025 }, { 1024, 20000 } };

/* How often a call was refused for want of memory, and then made again. */
static int again;

#define TWICE(rc, it) do { if ((rc = (it)) == VAH_MEMORY) { again++; rc = (it); } } while (0)

/* As `life`. Each call that is refused for want of memory is made again. */
static int short_life(const char *dir, const vah_config *config, int *acked)
{
	vah_store *store;
	vah_txn *txn;
	unsigned char key[220];
	int rc, end;
	TWICE(rc, vah_open(dir, config, &store));
	if (rc) return rc;
	for (unsigned char t = 0; !rc && t < TURNS; t++) {
		TWICE(rc, vah_begin(store, &txn));
		for (unsigned char k = 0; !rc && k < KEYS; k++) {
			life_key(t == 4 ? 0 : t, k, key);
			if (t == 4) TWICE(rc, vah_delete(txn, key, sizeof key));
			else if (t == 5) TWICE(rc, vah_put(txn, key, sizeof key, t, NULL, NULL));
			else TWICE(rc, vah_insert(txn, key, sizeof key, t));
			if (!rc && k) {
				vah_entry entry;
				TWICE(rc, vah_next(txn, key, sizeof key, &entry));
				if (rc == VAH_NOT_FOUND) rc = VAH_OK;
				if (!rc) TWICE(rc, vah_prev(txn, key, sizeof key, &entry));
				if (rc == VAH_NOT_FOUND) rc = VAH_OK;
			}
		}
		if (rc) break;
		if (t == 3) {
			uint64_t save;
			TWICE(rc, vah_savepoint(txn, &save));
			for (unsigned char k = 0; !rc && k < 2 * KEYS; k++) {
				life_key(k < KEYS ? 0 : TURNS, k % KEYS, key);
				if (k < KEYS) TWICE(rc, vah_delete(txn, key, sizeof key));
				else TWICE(rc, vah_insert(txn, key, sizeof key, t));
			}
			if (!rc) TWICE(rc, vah_roll_to(txn, save + KEYS / 2));
			if (!rc) TWICE(rc, vah_roll_to(txn, save));
			if (rc) break;
		}
		if (t == 2) {
			TWICE(rc, vah_rollback(txn));
			continue;
		}
		TWICE(rc, vah_commit(txn));
		if (!rc) *acked |= 1 << t;
		if (!rc && t == 1) TWICE(rc, vah_checkpoint(store));
		if (!rc && t == 3) TWICE(rc, vah_switch(store));
	}
	TWICE(end, vah_close(store));
	return rc ? rc : end;
}

int main(int argc, char **argv)
{
	if (argc < 2) return 1;
	for (size_t i = 0; i < sizeof POOLS / sizeof *POOLS; i++) {
		vah_config config = small_config();
		char dir[4096];
		long all = 0, tried = 0;
		config.frames = POOLS[i].frames;
		config.cache_bytes = POOLS[i].more << 12;
		for (long n = 0; n <= all; n += argc > 2 || n < 12 || n + 12 > all ? 1 : 1 + all / 50) {
			int acked = 0;
			snprintf(dir, sizeof dir, "%s/%zu.%ld", argv[1], i, n);
			came = 0;
			refused = n;
			OK(short_life(dir, &config, &acked));
			if (!n) all = came;
			refused = 0;
			life_kept(dir, acked);
			tried++;
		}
		printf("a cache of %llu frames: %s\n", (unsigned long long)POOLS[i].more, tried > 50 ? "each life went on" : "too few requests");
	}
	return again < 20;
}
