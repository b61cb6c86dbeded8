/* A life whose device calls fail, or within which the process is killed: splits, rollbacks half way, returns to a savepoint, a checkpoint, a log that goes on in the
 * other file, a page pool that is small. */
#ifndef LIFE_H
#define LIFE_H
#include "test.h"

enum { TURNS = 6, KEYS = 12 };

static inline vah_config small_config(void)
{
	vah_config config = VAH_CONFIG_INIT;
	config.frames = 8;
	config.cache_bytes = 0;
	config.redo_bytes = 200000;
	return config;
}

/* The key of a turn. Keys of 220 bytes split pages soon. */
static inline void life_key(unsigned char turn, unsigned char k, unsigned char *key)
{
	memset(key, 0, 220);
	key[0] = (unsigned char)(k * 37);
	key[1] = turn;
	key[2] = k;
}

/* Changes that are taken back: more keys, and what turn 0 put in is deleted. A part goes first. */
static inline int life_returns(vah_txn *txn)
{
	unsigned char key[220];
	uint64_t save;
	int rc = vah_savepoint(txn, &save);
	for (unsigned char k = 0; !rc && k < KEYS; k++) {
		life_key(TURNS, k, key);
		rc = vah_insert(txn, key, sizeof key, k);
		life_key(0, k, key);
		if (!rc) rc = vah_delete(txn, key, sizeof key);
	}
	if (!rc) rc = vah_roll_to(txn, save + KEYS / 2);
	return rc ? rc : vah_roll_to(txn, save);
}

/* Each turn is a transaction; turn 2 is rolled back, turn 3 returns to a savepoint, and turn 4 deletes what turn 0 put in. `acked` is told of each that was committed. */
static inline int life(const char *dir, void (*acked)(int turn, void *with), void *with)
{
	vah_config config = small_config();
	vah_store *store;
	vah_txn *txn;
	unsigned char key[220];
	int rc = vah_open(dir, &config, &store);
	if (rc) return rc;
	for (unsigned char t = 0; !rc && t < TURNS; t++) {
		if ((rc = vah_begin(store, &txn))) break;
		for (unsigned char k = 0; !rc && k < KEYS; k++) {
			life_key(t == 4 ? 0 : t, k, key);
			rc = t == 4 ? vah_delete(txn, key, sizeof key) : t == 5 ? vah_put(txn, key, sizeof key, t, NULL, NULL) : vah_insert(txn, key, sizeof key, t);
		}
		if (!rc && t == 3) rc = life_returns(txn);
		if (rc || t == 2) {
			int back = vah_rollback(txn);
			rc = rc ? rc : back;
			continue;
		}
		if (!(rc = vah_commit(txn))) acked(t, with);
		if (!rc && t == 1) rc = vah_checkpoint(store);
		if (!rc && t == 3) rc = vah_switch(store);
	}
	int end = vah_close(store);
	return rc ? rc : end;
}

/* Opens the store again and tests it: each transaction is there whole or not at all, and where it was acknowledged it is there. */
static inline void life_kept(const char *dir, int acked)
{
	vah_config config = small_config();
	vah_store *store;
	vah_txn *txn;
	unsigned char key[220];
	int there[TURNS] = { 0 };
	OK(vah_open(dir, &config, &store));
	OK(vah_begin(store, &txn));
	for (unsigned char t = 0; t < TURNS; t++)
		for (unsigned char k = 0; k < KEYS; k++) {
			uint64_t n;
			life_key(t, k, key);
			int rc = vah_fetch(txn, key, sizeof key, &n);
			HOLDS(rc == VAH_NOT_FOUND || (rc == VAH_OK && n == t));
			there[t] += rc == VAH_OK;
			life_key(TURNS, k, key);
			IS(vah_fetch(txn, key, sizeof key, &n), VAH_NOT_FOUND);
		}
	OK(vah_commit(txn));
	OK(vah_close(store));
	for (int t = 0; t < TURNS; t++) HOLDS(there[t] == 0 || there[t] == KEYS);
	HOLDS(!there[2] && !there[4]);
	HOLDS(!(acked & 1 << 4) || !there[0]);
	for (int t = 1; t < TURNS; t++) HOLDS(t == 2 || t == 4 || !(acked >> t & 1) || there[t]);
	/* turn 4 takes back what turn 0 did, and may be there without an acknowledgement once turn 3 is */
	HOLDS(!(acked & 1) || there[0] || (acked & 1 << 3));
}

#endif
