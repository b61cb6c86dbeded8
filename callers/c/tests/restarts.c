/* Restarts that end: threads whose transactions overlap all come through, each after few restarts, and none is stopped by one that is left alone.
 * restarts FOLDER [TRANSACTIONS] */
#define _GNU_SOURCE
#include "test.h"
#include <pthread.h>
#include <stdatomic.h>
#include <time.h>
#include <unistd.h>

static double seconds(void)
{
	struct timespec now;
	clock_gettime(CLOCK_MONOTONIC, &now);
	return (double)now.tv_sec + (double)now.tv_nsec / 1e9;
}

/* ---- threads that overlap ---- */

enum { THREADS = 16, KEYS = 20, SPACE = 100 };
static vah_store *store;
static int each_has = 12;
static atomic_ulong most, all_agains;

static void key_of(unsigned at, char *key) { snprintf(key, 8, "%06u", at); }

/* Adds 1 to the row ids of so many keys, in the order of chance; what it does again is the same. */
static int add_to_keys(vah_txn *txn, unsigned mix)
{
	int rc = VAH_OK;
	for (int k = 0; !rc && k < KEYS; k++) {
		char key[8];
		uint64_t rid = 0;
		mix = mix * 1664525u + 1013904223u;
		key_of((mix >> 8) % SPACE, key);
		rc = vah_fetch(txn, key, 6, &rid);
		if (!rc || rc == VAH_NOT_FOUND) rc = vah_put(txn, key, 6, rid + 1, NULL, NULL);
	}
	return rc;
}

static void *overlap(void *arg)
{
	unsigned mix = (unsigned)(size_t)arg * 2654435761u;
	for (int i = 0; i < each_has; i++) {
		vah_txn *txn;
		unsigned long agains = 0, now = atomic_load(&most);
		int rc;
		mix = mix * 1664525u + 1013904223u;
		OK(vah_begin(store, &txn));
		while ((rc = add_to_keys(txn, mix)) == VAH_GIVE_WAY) {
			agains++;
			OK(vah_again(txn));
		}
		OK(rc);
		OK(vah_commit(txn));
		atomic_fetch_add(&all_agains, agains);
		while (now < agains && !atomic_compare_exchange_weak(&most, &now, agains)) { }
	}
	return NULL;
}

/* The sum of all row ids: what all transactions have added. */
static uint64_t sum_of_all(void)
{
	static vah_ref refs[VAH_SCAN_MAX];
	vah_txn *txn;
	size_t count;
	uint64_t sum = 0;
	OK(vah_begin(store, &txn));
	OK(vah_scan_refs(txn, "0", 1, "9", 1, refs, VAH_SCAN_MAX, &count));
	for (size_t i = 0; i < count; i++) sum += refs[i].rid;
	OK(vah_commit(txn));
	return sum;
}

/* Whether few restarts were enough: 4 each at most where none is left alone, but a machine that is busy may hold a thread up for longer than that. */
static int come_through_soon(void)
{
	pthread_t all[THREADS];
	vah_info info;
	uint64_t before = sum_of_all();
	atomic_store(&most, 0);
	atomic_store(&all_agains, 0);
	OK(vah_stat(store, &info));
	uint64_t restarts = info.restarts;
	for (size_t i = 0; i < THREADS; i++) HOLDS(!pthread_create(&all[i], NULL, overlap, (void *)i));
	for (int i = 0; i < THREADS; i++) pthread_join(all[i], NULL);
	HOLDS(sum_of_all() == before + THREADS * (uint64_t)each_has * KEYS);
	OK(vah_stat(store, &info));
	HOLDS(info.restarts == restarts + all_agains);
	return all_agains <= 6ul * THREADS * (unsigned long)each_has && most <= 30;
}

static void all_come_through(void)
{
	int tries = 0;
	while (!come_through_soon()) HOLDS(++tries < 20);
}

/* ---- who is left alone ---- */

struct beside { atomic_int stop; atomic_ulong commits; atomic_int rc; };

/* Commits again and again, of keys that nobody else has. */
static void *commit_beside(void *arg)
{
	struct beside *b = arg;
	while (!atomic_load(&b->stop)) {
		vah_txn *txn;
		OK(vah_begin(store, &txn));
		OK(vah_put(txn, "b", 1, atomic_load(&b->commits), NULL, NULL));
		OK(vah_commit(txn));
		atomic_fetch_add(&b->commits, 1);
	}
	return NULL;
}

/* Wants a key that an older one has, which is left alone. */
static void *begin_until_free(void *arg)
{
	struct beside *b = arg;
	vah_txn *txn;
	uint64_t rid;
	int rc;
	OK(vah_begin(store, &txn));
	while ((rc = vah_fetch(txn, "z", 1, &rid)) == VAH_GIVE_WAY) OK(vah_again(txn));
	atomic_store(&b->rc, rc);
	OK(vah_commit(txn));
	return NULL;
}

/* A transaction that has a key, and is left alone with it for longer than anyone waits for it, stops who wants that key, and nobody else. */
static void beside_one_alone(void)
{
	struct beside b = { .rc = -1 };
	pthread_t commits, waits;
	vah_txn *old;
	vah_info info, later;
	OK(vah_begin(store, &old));
	OK(vah_insert(old, "b", 1, 1));
	OK(vah_insert(old, "c", 1, 1)); /* so that who changes "b" asks for no key that is held below */
	OK(vah_commit(old));
	OK(vah_begin(store, &old));
	OK(vah_insert(old, "z", 1, 1));
	HOLDS(!pthread_create(&waits, NULL, begin_until_free, &b));
	HOLDS(!pthread_create(&commits, NULL, commit_beside, &b));
	OK(vah_stat(store, &info));
	/* it tries again, and not as fast as it can, and the other one commits all the while */
	for (double from = seconds(), passed = 0; passed < 120; ) {
		usleep(100000);
		OK(vah_stat(store, &later));
		passed = seconds() - from; /* as this thread may have been held up */
		HOLDS((double)(later.restarts - info.restarts) <= 5 + 30 * passed);
		if (passed >= 1.2 && later.restarts >= info.restarts + 5 && atomic_load(&b.commits) >= 5) break;
	}
	HOLDS(later.restarts >= info.restarts + 5 && atomic_load(&b.commits) >= 5);
	HOLDS(atomic_load(&b.rc) == -1);
	OK(vah_commit(old));
	pthread_join(waits, NULL);
	IS(b.rc, VAH_OK);
	atomic_store(&b.stop, 1);
	pthread_join(commits, NULL);
}

/* ---- who is first ---- */

enum { OFTEN = 4 };
static pthread_barrier_t turn;

/* Gives way so often that it is first, and then makes no call until it is told to. */
static void *be_first(void *arg)
{
	vah_txn *txn;
	uint64_t rid;
	(void)arg;
	OK(vah_begin(store, &txn));
	for (int i = 0; i < OFTEN; i++) {
		pthread_barrier_wait(&turn);
		IS(vah_fetch(txn, "y", 1, &rid), VAH_GIVE_WAY);
		pthread_barrier_wait(&turn);
		OK(vah_again(txn));
	}
	pthread_barrier_wait(&turn);
	pthread_barrier_wait(&turn);
	IS(vah_fetch(txn, "y", 1, &rid), VAH_NOT_FOUND);
	OK(vah_commit(txn));
	return NULL;
}

/* Nobody begins before who is first has ended, unless it is left alone: some two tenths of a second later, whether those who begin wait or not. */
static void first_and_alone(unsigned flags)
{
	vah_txn *old, *next, *txn;
	int rc, tries = 0;
	pthread_t thread;
	pthread_barrier_init(&turn, NULL, 2);
	OK(vah_begin(store, &old));
	OK(vah_insert(old, "y", 1, 1));
	HOLDS(!pthread_create(&thread, NULL, be_first, NULL));
	for (int i = 0; i < OFTEN; i++) {
		pthread_barrier_wait(&turn);
		if (i + 1 < OFTEN) OK(vah_begin(store, &next));
		pthread_barrier_wait(&turn); /* it gave way to `old`, and begins again behind `next` */
		OK(vah_rollback(old));
		old = next;
		if (i + 1 < OFTEN) OK(vah_insert(old, "y", 1, 1));
	}
	pthread_barrier_wait(&turn);
	IS(vah_begin_with(store, VAH_NO_WAIT, &txn), VAH_BUSY);
	while ((rc = vah_begin_with(store, flags, &txn)) == VAH_BUSY) {
		HOLDS(++tries < 500);
		usleep(10000);
	}
	OK(rc);
	OK(vah_put(txn, "a", 1, 1, NULL, NULL));
	OK(vah_commit(txn));
	OK(vah_begin_with(store, VAH_NO_WAIT, &txn));
	OK(vah_rollback(txn));
	pthread_barrier_wait(&turn);
	pthread_join(thread, NULL);
	pthread_barrier_destroy(&turn);
}

/* ---- who is ended while it is to be first ---- */

struct returning { vah_txn *txn; int rc; double end; pthread_t thread; atomic_int is_over; };

static void *again(void *arg)
{
	struct returning *r = arg;
	r->rc = vah_again(r->txn);
	r->end = seconds();
	atomic_store(&r->is_over, 1);
	return NULL;
}

/* Begins a transaction again in another thread, which sleeps, or is over, once this returns. */
static void start_again(struct returning *r)
{
	vah_info before, now;
	OK(vah_stat(store, &before));
	atomic_store(&r->is_over, 0);
	HOLDS(!pthread_create(&r->thread, NULL, again, r));
	do {
		usleep(1000);
		OK(vah_stat(store, &now));
	} while (now.waits == before.waits && !atomic_load(&r->is_over));
}

static int answer(struct returning *r)
{
	pthread_join(r->thread, NULL);
	return r->rc;
}

/* Has one give way until it waits to be first, behind `old`. Whether it came so far: the machine may hold this thread up, so that `old` is left alone. */
static int wait_to_be_first(struct returning *r, vah_txn **old)
{
	uint64_t rid;
	OK(vah_begin(store, old));
	OK(vah_put(*old, "y", 1, 1, NULL, NULL));
	OK(vah_begin(store, &r->txn));
	for (int i = 1; vah_fetch(r->txn, "y", 1, &rid) == VAH_GIVE_WAY; i++) {
		vah_txn *next;
		start_again(r);
		if (i == OFTEN) return 1;
		OK(vah_begin(store, &next));
		OK(vah_rollback(*old));
		OK(answer(r));
		OK(vah_put(*old = next, "y", 1, 1, NULL, NULL));
	}
	OK(vah_rollback(r->txn));
	OK(vah_rollback(*old));
	return 0;
}

/* Another thread rolls back who waits to be first: then nobody is. */
static void ended_before_it_is_first(void)
{
	struct returning r;
	vah_txn *old, *txn;
	for (int tries = 0, rc = VAH_OK; rc != VAH_NO_TRANSACTION; tries++) {
		HOLDS(tries < 200);
		if (!wait_to_be_first(&r, &old)) continue;
		OK(vah_rollback(r.txn));
		rc = answer(&r);
		OK(vah_rollback(old));
	}
	OK(vah_begin_within(store, 0, 20000, &txn));
	OK(vah_rollback(txn));
}

/* ---- several commits in one force, and who waits for them ---- */

enum { OLDER = 4, LAST = 40, MOST = 800 };
struct older { char key; double end; pthread_t thread; };

static void *commit_older(void *arg)
{
	struct older *o = arg;
	vah_txn *txn;
	OK(vah_begin(store, &txn));
	OK(vah_put(txn, &o->key, 1, (uint64_t)(seconds() * 1e6), NULL, NULL)); /* another one each time, so that it changes something */
	pthread_barrier_wait(&turn);
	pthread_barrier_wait(&turn);
	OK(vah_commit(txn));
	o->end = seconds();
	return NULL;
}

/* How long after the last of the older ones had ended the younger one began again; a second where it did not wait for them, as they were left alone. */
static double began_after(void)
{
	struct older all[OLDER];
	struct returning r;
	uint64_t rid;
	int has_waited;
	double last = 0;
	for (int i = 0; i < OLDER; i++) {
		all[i].key = (char)('B' + 2 * i);
		HOLDS(!pthread_create(&all[i].thread, NULL, commit_older, &all[i]));
	}
	pthread_barrier_wait(&turn);
	OK(vah_begin(store, &r.txn));
	IS(vah_fetch(r.txn, "B", 1, &rid), VAH_GIVE_WAY);
	start_again(&r);
	has_waited = !atomic_load(&r.is_over);
	pthread_barrier_wait(&turn);
	for (int i = 0; i < OLDER; i++) {
		pthread_join(all[i].thread, NULL);
		if (all[i].end > last) last = all[i].end;
	}
	OK(answer(&r));
	OK(vah_rollback(r.txn));
	return has_waited ? r.end - last : 1;
}

/* It begins as soon as they have ended, and does not sleep until the next look at the clock, a tenth of a second later: then nearly half of the rounds
 * are late, as who waits may be woken before the last of them is gone. One that the machine held up is late too: so a row of rounds is wanted of which few are. */
static void woken_by_last(void)
{
	vah_txn *txn;
	int is_late[LAST], late = LAST;
	OK(vah_begin(store, &txn));
	for (char key = 'A'; key <= 'A' + 2 * OLDER; key++) OK(vah_put(txn, &key, 1, 0, NULL, NULL)); /* keys between theirs too */
	OK(vah_commit(txn));
	pthread_barrier_init(&turn, NULL, OLDER + 1);
	for (int i = 0; i < LAST; i++) is_late[i] = 1;
	for (int i = 0; late > LAST / 10 && i < MOST; i++) {
		late -= is_late[i % LAST];
		is_late[i % LAST] = began_after() > 0.02;
		late += is_late[i % LAST];
	}
	pthread_barrier_destroy(&turn);
	HOLDS(late <= LAST / 10);
}

int main(int argc, char **argv)
{
	if (argc < 2) return 1;
	if (argc > 2) each_has = atoi(argv[2]);
	OK(vah_open(argv[1], NULL, &store));
	all_come_through();
	beside_one_alone();
	first_and_alone(0);
	first_and_alone(VAH_NO_WAIT);
	ended_before_it_is_first();
	woken_by_last();
	OK(vah_close(store));
	return 0;
}
