/* Waits that end: by their limit, by a close, by another thread that takes the transaction back, and at once where a thread would wait for itself, alone or
 * in a ring of threads and stores. waits FOLDER [THREADS] */
#define _GNU_SOURCE
#include "test.h"
#include <pthread.h>
#include <stdatomic.h>
#include <time.h>
#include <unistd.h>

static double seconds(void)
{
	struct timespec now;
	clock_gettime(CLOCK_MONOTONIC, &now);
	return (double)now.tv_sec + (double)now.tv_nsec / 1e9;
}

static const char *folder;

static vah_store *open_named(const char *name, uint64_t wait_ms)
{
	char dir[4096];
	vah_config config = VAH_CONFIG_INIT;
	vah_store *store;
	config.wait_ms = wait_ms;
	snprintf(dir, sizeof dir, "%.4000s/%s", folder, name);
	OK(vah_open(dir, &config, &store));
	return store;
}

/* A call that another thread makes, and what it was answered. */
struct asked { vah_store *store; vah_txn *txn; const char *key; int rc; pthread_t thread; atomic_int is_over; };

static void *insert(void *arg)
{
	struct asked *a = arg;
	a->rc = vah_insert(a->txn, a->key, 1, 1);
	atomic_store(&a->is_over, 1);
	return NULL;
}

static void *begin(void *arg)
{
	struct asked *a = arg;
	a->rc = vah_begin(a->store, &a->txn);
	atomic_store(&a->is_over, 1);
	return NULL;
}

/* Starts a call in another thread, which sleeps, or is over, once this returns. */
static void start(struct asked *a, void *(*call)(void *))
{
	vah_info before, now;
	OK(vah_stat(a->store, &before));
	atomic_store(&a->is_over, 0);
	HOLDS(!pthread_create(&a->thread, NULL, call, a));
	do {
		usleep(1000);
		OK(vah_stat(a->store, &now));
	} while (now.waits == before.waits && !atomic_load(&a->is_over));
}

static int answer(struct asked *a)
{
	pthread_join(a->thread, NULL);
	return a->rc;
}

/* ---- limits ---- */

/* Waits for so many milliseconds, and not much longer, and is then as it was. */
static void is_busy_after(vah_txn *txn, const char *key, double ms)
{
	double from = seconds();
	IS(vah_insert(txn, key, 1, 1), VAH_BUSY);
	double took = (seconds() - from) * 1000;
	HOLDS(took >= ms && took < ms + 20000);
	HOLDS(strstr(vah_last_error(), "not waited for any longer"));
}

static void *hold(void *arg)
{
	struct asked *a = arg;
	OK(vah_begin(a->store, &a->txn));
	OK(vah_insert(a->txn, "k", 1, 9));
	atomic_store(&a->is_over, 1);
	return NULL;
}

static void limits(void)
{
	vah_store *store = open_named("limits", 40);
	vah_txn *old, *any, *none;
	struct asked young = { .store = store }, waits;
	uint64_t rid;
	OK(vah_begin(store, &old));
	OK(vah_begin_within(store, 0, 0, &any));
	OK(vah_begin_with(store, VAH_NO_WAIT, &none));
	OK(vah_insert(old, "a", 1, 5));
	start(&young, hold);
	pthread_join(young.thread, NULL);
	is_busy_after(old, "k", 40);
	OK(vah_set_wait(old, 90));
	is_busy_after(old, "k", 90);
	is_busy_after(none, "k", 0);
	IS(vah_put(none, "k", 1, 3, NULL, NULL), VAH_BUSY);
	/* as it was: what it did stands, it goes on, and it gets what it waited for once that is free */
	OK(vah_fetch(old, "a", 1, &rid));
	HOLDS(rid == 5);
	IS(vah_fetch(old, "k", 1, &rid), VAH_BUSY);
	waits = (struct asked){ .store = store, .txn = any, .key = "k" };
	start(&waits, insert);
	usleep(60000);
	HOLDS(!atomic_load(&waits.is_over)); /* that of any length */
	OK(vah_rollback(young.txn));
	OK(answer(&waits));
	IS(vah_insert(none, "k", 1, 1), VAH_GIVE_WAY);
	OK(vah_rollback(none));
	OK(vah_rollback(any));
	OK(vah_insert(old, "k", 1, 1));
	OK(vah_commit(old));
	OK(vah_close(store));
}

/* ---- the 65th ---- */

static void *begin_many(void *arg)
{
	vah_txn **txns = arg;
	vah_store *store = (vah_store *)txns[0];
	for (int i = 0; i < 64; i++) OK(vah_begin(store, &txns[i]));
	return NULL;
}

static void full(void)
{
	vah_store *store = open_named("full", 0);
	vah_txn *txns[64] = { (vah_txn *)store }, *more;
	struct asked waits[3] = { { .store = store }, { .store = store }, { .store = store } };
	pthread_t thread;
	HOLDS(!pthread_create(&thread, NULL, begin_many, txns));
	pthread_join(thread, NULL);
	IS(vah_begin_with(store, VAH_NO_WAIT, &more), VAH_TOO_MANY);
	double from = seconds();
	IS(vah_begin_within(store, 0, 30, &more), VAH_BUSY);
	HOLDS(seconds() - from >= 0.03);
	for (int i = 0; i < 3; i++) start(&waits[i], begin);
	for (int i = 0; i < 3; i++) HOLDS(!atomic_load(&waits[i].is_over));
	for (int i = 0; i < 3; i++) OK(i % 2 ? vah_commit(txns[i]) : vah_rollback(txns[i])); /* each lets one in */
	for (int i = 0; i < 3; i++) OK(answer(&waits[i]));
	IS(vah_begin_with(store, VAH_NO_WAIT, &more), VAH_TOO_MANY);
	for (int i = 0; i < 64; i++) OK(vah_rollback(i < 3 ? waits[i].txn : txns[i]));
	OK(vah_close(store));
}

/* ---- who would wait for itself ---- */

static void alone(void)
{
	vah_store *store = open_named("alone", 0);
	vah_txn *old, *young, *all[64];
	uint64_t rid;
	OK(vah_begin(store, &old));
	OK(vah_begin(store, &young));
	OK(vah_insert(young, "y", 1, 1));
	IS(vah_insert(old, "y", 1, 2), VAH_DEADLOCK);
	HOLDS(strstr(vah_last_error(), "wait for itself"));
	OK(vah_insert(old, "z", 1, 2));
	/* the younger one gave way to its own thread's: that one has to end */
	IS(vah_fetch(young, "z", 1, &rid), VAH_GIVE_WAY);
	IS(vah_again(young), VAH_DEADLOCK);
	IS(vah_again(young), VAH_DEADLOCK);
	IS(vah_fetch(young, "z", 1, &rid), VAH_MUST_ROLL_BACK);
	IS(vah_commit(young), VAH_MUST_ROLL_BACK);
	OK(vah_insert(old, "y", 1, 2)); /* what it did was taken back */
	OK(vah_commit(old));
	OK(vah_again(young));
	OK(vah_fetch(young, "z", 1, &rid));
	OK(vah_rollback(young));
	for (int i = 0; i < 64; i++) OK(vah_begin(store, &all[i]));
	IS(vah_begin(store, &old), VAH_DEADLOCK);
	for (int i = 0; i < 64; i++) OK(vah_rollback(all[i]));
	OK(vah_close(store));
}

/* Two threads, each with a transaction that is older and one that is younger, in one store or two: the older of each waits for the younger of the other. */
struct half { vah_store *olds, *youngs; vah_txn *old, *young; const char *own, *others; int rc; pthread_barrier_t *turn; int is_second; };

static void *ring_half(void *arg)
{
	struct half *h = arg;
	if (h->is_second) pthread_barrier_wait(h->turn);
	OK(vah_begin(h->olds, &h->old));
	if (!h->is_second) pthread_barrier_wait(h->turn);
	pthread_barrier_wait(h->turn);
	OK(vah_begin(h->youngs, &h->young));
	OK(vah_insert(h->young, h->own, 1, 1));
	pthread_barrier_wait(h->turn);
	h->rc = vah_insert(h->old, h->others, 1, 2);
	HOLDS(h->rc == VAH_OK || h->rc == VAH_DEADLOCK);
	OK(vah_rollback(h->young));
	OK(vah_commit(h->old));
	return NULL;
}

static void ring(vah_store *first, vah_store *second)
{
	pthread_barrier_t turn;
	pthread_t threads[2];
	struct half halves[2] = { { .olds = first, .youngs = second, .own = "d", .others = "m", .turn = &turn },
		{ .olds = second, .youngs = first, .own = "m", .others = "d", .turn = &turn, .is_second = 1 } };
	pthread_barrier_init(&turn, NULL, 2);
	for (int i = 0; i < 2; i++) HOLDS(!pthread_create(&threads[i], NULL, ring_half, &halves[i]));
	for (int i = 0; i < 2; i++) pthread_join(threads[i], NULL);
	HOLDS((halves[0].rc == VAH_DEADLOCK) + (halves[1].rc == VAH_DEADLOCK) == 1); /* the later one; the other gets what it waits for */
	pthread_barrier_destroy(&turn);
}

static void take_out(vah_store *store)
{
	vah_txn *txn;
	OK(vah_begin(store, &txn));
	vah_delete(txn, "d", 1);
	vah_delete(txn, "m", 1);
	OK(vah_commit(txn));
}

static void rings(void)
{
	vah_store *one = open_named("ring", 0), *other = open_named("ring2", 0);
	vah_txn *txn;
	for (int k = 0; k < 2; k++) { /* keys between those that are put in, as an insert asks for the next one too */
		OK(vah_begin(k ? other : one, &txn));
		OK(vah_insert(txn, "f", 1, 1));
		OK(vah_insert(txn, "q", 1, 1));
		OK(vah_commit(txn));
	}
	for (int i = 0; i < 8; i++) {
		ring(one, one);
		take_out(one);
		ring(one, other);
		take_out(one);
		take_out(other);
	}
	OK(vah_close(one));
	OK(vah_close(other));
}

/* A ring over a place: the other thread waits for this one's lock, and this one for a place, of which it has all but one. */
static void ring_over_places(void)
{
	vah_store *store = open_named("places", 0);
	vah_txn *txns[63], *more;
	struct asked waits = { .store = store, .key = "k" };
	start(&waits, begin);
	OK(answer(&waits));
	for (int i = 0; i < 63; i++) OK(vah_begin(store, &txns[i]));
	OK(vah_insert(txns[5], "k", 1, 1));
	IS(vah_begin_within(store, 0, 10, &more), VAH_BUSY); /* the other thread might end its own */
	start(&waits, insert);
	IS(vah_begin(store, &more), VAH_DEADLOCK);
	OK(vah_rollback(txns[5]));
	OK(answer(&waits));
	OK(vah_begin(store, &txns[5]));
	OK(vah_rollback(waits.txn));
	for (int i = 0; i < 63; i++) OK(vah_rollback(txns[i]));
	OK(vah_close(store));
}

static void *touch(void *txn)
{
	OK(vah_set_wait(txn, 0));
	return NULL;
}

/* A ring is seen though a third thread has made a call of the transaction in which one of the two sleeps. */
static void ring_beside_third(void)
{
	vah_store *store = open_named("third", 0);
	vah_txn *old, *young;
	struct asked middle = { .store = store, .key = "m" };
	pthread_t third;
	OK(vah_begin(store, &old));
	OK(vah_insert(old, "f", 1, 1)); /* between theirs */
	OK(vah_commit(old));
	OK(vah_begin_within(store, 0, 5000, &old));
	OK(vah_begin(store, &middle.txn));
	OK(vah_begin(store, &young));
	OK(vah_insert(middle.txn, "d", 1, 1));
	OK(vah_insert(young, "m", 1, 1));
	start(&middle, insert);
	HOLDS(!pthread_create(&third, NULL, touch, middle.txn));
	pthread_join(third, NULL);
	IS(vah_insert(old, "d", 1, 1), VAH_DEADLOCK);
	OK(vah_rollback(young));
	OK(answer(&middle));
	OK(vah_rollback(middle.txn));
	OK(vah_commit(old));
	OK(vah_close(store));
}

/* ---- whom others send back ---- */

static void sent_back(void)
{
	vah_store *store = open_named("sent", 0);
	vah_txn *old, *young, *more[62];
	struct asked in_insert, in_begin = { .store = store };
	uint64_t rid;
	OK(vah_begin(store, &old));
	OK(vah_insert(old, "a", 1, 1));
	OK(vah_begin(store, &young));
	OK(vah_insert(young, "k", 1, 1));
	for (int i = 0; i < 62; i++) OK(vah_begin(store, &more[i]));
	in_insert = (struct asked){ .store = store, .txn = old, .key = "k" };
	start(&in_insert, insert);
	start(&in_begin, begin);
	IS(vah_close(store), VAH_ACTIVE);
	IS(answer(&in_insert), VAH_BUSY);
	IS(answer(&in_begin), VAH_BUSY);
	OK(vah_fetch(old, "a", 1, &rid)); /* as it was */
	/* another thread takes it back while it sleeps */
	start(&in_insert, insert);
	OK(vah_rollback(old));
	IS(answer(&in_insert), VAH_NO_TRANSACTION);
	IS(vah_fetch(young, "a", 1, &rid), VAH_NOT_FOUND);
	OK(vah_commit(young));
	for (int i = 0; i < 62; i++) OK(vah_rollback(more[i]));
	OK(vah_close(store));
}

/* ---- waits in slices ---- */

struct busy { vah_txn *txn; atomic_int stop, is_begun; pthread_t thread; };

/* Makes a call now and then, so that it is not left alone, if only the machine lets it. */
static void *keep_busy(void *arg)
{
	struct busy *b = arg;
	while (!atomic_load(&b->stop)) {
		uint64_t rid;
		OK(vah_fetch(b->txn, "o", 1, &rid));
		atomic_store(&b->is_begun, 1);
		usleep(2000);
	}
	OK(vah_commit(b->txn));
	return NULL;
}

/* An older transaction that has a key, and is another thread's. */
static void start_busy(vah_store *store, struct busy *b)
{
	OK(vah_begin(store, &b->txn));
	OK(vah_insert(b->txn, "o", 1, 1));
	atomic_store(&b->stop, 0);
	atomic_store(&b->is_begun, 0);
	HOLDS(!pthread_create(&b->thread, NULL, keep_busy, b));
	while (!atomic_load(&b->is_begun)) usleep(1000);
}

static void slices(void)
{
	vah_store *store = open_named("slices", 0);
	struct busy old;
	vah_txn *young;
	uint64_t rid;
	int busy = 0, rc;
	start_busy(store, &old);
	OK(vah_begin_within(store, 0, 10, &young));
	while ((rc = vah_fetch(young, "o", 1, &rid)) == VAH_GIVE_WAY)
		while ((rc = vah_again(young))) {
			IS(rc, VAH_BUSY);
			IS(vah_insert(young, "z", 1, 1), VAH_MUST_ROLL_BACK);
			if (++busy == 5) atomic_store(&old.stop, 1);
		}
	OK(rc);
	HOLDS(busy >= 5);
	OK(vah_commit(young));
	pthread_join(old.thread, NULL);
	OK(vah_close(store));
}

/* ---- one transaction that two threads begin again ---- */

static void *again(void *arg)
{
	struct asked *a = arg;
	a->rc = vah_again(a->txn);
	atomic_store(&a->is_over, 1);
	return NULL;
}

/* While one of them waits the other is told so, and it is begun once. */
static void twice(void)
{
	vah_store *store = open_named("twice", 0);
	struct busy old;
	struct asked waits = { .store = store };
	vah_info info;
	uint64_t rid;
	int rc = VAH_OK;
	start_busy(store, &old);
	OK(vah_begin(store, &waits.txn));
	for (int i = 0; !rc && i < 200; i++) { /* again where the machine has held the older one up, so that it was left alone */
		IS(vah_fetch(waits.txn, "o", 1, &rid), VAH_GIVE_WAY);
		start(&waits, again);
		if (!(rc = vah_again(waits.txn))) OK(answer(&waits));
	}
	IS(rc, VAH_BUSY);
	atomic_store(&old.stop, 1);
	OK(answer(&waits));
	pthread_join(old.thread, NULL);
	OK(vah_stat(store, &info));
	HOLDS(info.active == 1);
	OK(vah_fetch(waits.txn, "o", 1, &rid));
	OK(vah_commit(waits.txn));
	OK(vah_stat(store, &info));
	HOLDS(info.active == 0);
	OK(vah_close(store));
}

/* ---- one that is rolled back while another thread takes it back, to begin it again ---- */

enum { MANY = 2000 };

/* Whether the rollback came in between; then the transaction has ended, and else it is ended here. */
static int is_ended_between(vah_store *store)
{
	vah_txn *old;
	struct asked young = { .store = store };
	uint64_t rid;
	int rc;
	OK(vah_begin(store, &old));
	OK(vah_put(old, "b", 1, 1, NULL, NULL)); /* a key between theirs, as an insert asks for the next one too */
	OK(vah_commit(old));
	OK(vah_begin(store, &old));
	OK(vah_insert(old, "o", 1, 1));
	OK(vah_begin(store, &young.txn));
	for (int i = 0; i < MANY; i++) OK(vah_insert(young.txn, (uint8_t[]){ 'a', (uint8_t)(i >> 8), (uint8_t)i }, 3, 1));
	IS(vah_fetch(young.txn, "o", 1, &rid), VAH_GIVE_WAY);
	OK(vah_rollback(old));
	HOLDS(!pthread_create(&young.thread, NULL, again, &young));
	while ((rc = vah_fetch(young.txn, "o", 1, &rid)) == VAH_MUST_ROLL_BACK) { }
	if (rc == VAH_ROLLING_BACK) rc = vah_rollback(young.txn);
	if (rc == VAH_ROLLING_BACK) {
		IS(answer(&young), VAH_NO_TRANSACTION);
		IS(vah_rollback(young.txn), VAH_NO_TRANSACTION);
		return 1;
	}
	OK(answer(&young));
	vah_rollback(young.txn);
	return 0;
}

static void ended_between(void)
{
	vah_store *store = open_named("between", 0);
	vah_info info;
	int tries = 0;
	while (!is_ended_between(store)) HOLDS(++tries < 500);
	OK(vah_stat(store, &info));
	HOLDS(info.active == 0);
	OK(vah_close(store));
}

/* ---- a thousand threads ---- */

struct crowd { vah_store *store; int number; };

static void *one_of_crowd(void *arg)
{
	struct crowd *c = arg;
	vah_txn *txn;
	OK(vah_begin(c->store, &txn));
	int rc;
	while ((rc = vah_put(txn, &c->number, sizeof c->number, 1, NULL, NULL)) == VAH_GIVE_WAY) OK(vah_again(txn));
	OK(rc);
	OK(vah_commit(txn));
	return NULL;
}

static void crowd(int threads)
{
	static pthread_t all[1000];
	static struct crowd each[1000];
	vah_store *store = open_named("crowd", 0);
	vah_txn *txn;
	vah_entry at;
	pthread_attr_t small;
	int count = 0, rc;
	HOLDS(threads <= 1000);
	pthread_attr_init(&small);
	pthread_attr_setstacksize(&small, 256 << 10);
	for (int i = 0; i < threads; i++) {
		each[i] = (struct crowd){ store, i };
		HOLDS(!pthread_create(&all[i], &small, one_of_crowd, &each[i]));
	}
	for (int i = 0; i < threads; i++) pthread_join(all[i], NULL);
	OK(vah_begin(store, &txn));
	for (rc = vah_seek(txn, "\0", 1, &at); !rc; rc = vah_next(txn, at.key, at.len, &at)) count++;
	IS(rc, VAH_NOT_FOUND);
	HOLDS(count == threads);
	OK(vah_commit(txn));
	OK(vah_close(store));
}

/* ---- more threads than places, none of which rests ---- */

enum { RESTLESS = 80, SHARE = 60 };
struct restless { vah_store *store; pthread_t thread; int is_there; unsigned long begun; };
static atomic_int there, all_there, stop;
static atomic_ulong all_begun;

static void *begin_and_end(void *arg)
{
	struct restless *r = arg;
	while (!atomic_load(&stop)) {
		vah_txn *txn;
		OK(vah_begin(r->store, &txn));
		OK(vah_commit(txn));
		if (atomic_load(&all_there)) {
			r->begun++;
			atomic_fetch_add(&all_begun, 1);
		} else if (!r->is_there) {
			r->is_there = 1;
			atomic_fetch_add(&there, 1);
		}
	}
	return NULL;
}

/* Lets them begin and end until each might have had its share; how many of them had less than a tenth of it. */
static int poor_ones(vah_store *store)
{
	static struct restless all[RESTLESS];
	int poor = 0;
	atomic_store(&there, 0);
	atomic_store(&all_there, 0);
	atomic_store(&all_begun, 0);
	atomic_store(&stop, 0);
	for (int i = 0; i < RESTLESS; i++) {
		all[i] = (struct restless){ .store = store };
		HOLDS(!pthread_create(&all[i].thread, NULL, begin_and_end, &all[i]));
	}
	for (double from = seconds(); atomic_load(&there) < RESTLESS; usleep(1000)) HOLDS(seconds() - from < 120); /* each has had a turn */
	atomic_store(&all_there, 1);
	while (atomic_load(&all_begun) < SHARE * RESTLESS) usleep(1000);
	atomic_store(&stop, 1);
	for (int i = 0; i < RESTLESS; i++) pthread_join(all[i].thread, NULL);
	for (int i = 0; i < RESTLESS; i++) poor += all[i].begun < SHARE / 10;
	return poor;
}

/* All but one of the places are kept: they come and go in the one that is left, and each has its turn. Again where the machine held them up. */
static void turns(void)
{
	vah_store *store = open_named("turns", 0);
	vah_txn *kept[63];
	int poor = RESTLESS;
	for (int i = 0; i < 63; i++) OK(vah_begin(store, &kept[i]));
	for (int i = 0; poor >= RESTLESS / 10 && i < 10; i++) poor = poor_ones(store);
	HOLDS(poor < RESTLESS / 10);
	for (int i = 0; i < 63; i++) OK(vah_rollback(kept[i]));
	OK(vah_close(store));
}

int main(int argc, char **argv)
{
	if (argc < 2) return 1;
	folder = argv[1];
	limits();
	full();
	alone();
	rings();
	ring_over_places();
	ring_beside_third();
	sent_back();
	slices();
	twice();
	ended_between();
	turns();
	crowd(argc > 2 ? atoi(argv[2]) : 1000);
	return 0;
}
