/* Commits of threads that share a force of the log: each that was acknowledged is there after a failure, few syncs serve many of them, and none waits
 * for nobody. Built with -DVAH_TEST. commits FOLDER [STEP]: with a STEP each STEPth call of the device fails alone. */
#define _GNU_SOURCE
#include "test.h"
#include <pthread.h>
#include <stdatomic.h>
#include <unistd.h>

enum { THREADS = 8, EACH = 12, ROUNDS = 40 };
extern atomic_ulong vah_test_syncs;

struct work { vah_store *store; pthread_barrier_t *all; int number, is_calm; unsigned long acked, asked; };

/* Each transaction puts one key in. Ends at the first call that is refused by the device, or after that. */
static void *commit_each(void *arg)
{
	struct work *work = arg;
	pthread_barrier_wait(work->all);
	for (int i = 0; i < EACH; i++) {
		unsigned char key[2] = { (unsigned char)(work->number * 31), (unsigned char)i };
		vah_txn *txn = NULL;
		int rc = vah_begin(work->store, &txn);
		while (!rc && (rc = vah_insert(txn, key, 2, (uint64_t)i)) == VAH_GIVE_WAY)
			if ((rc = vah_again(txn))) txn = NULL;
		if (!rc) {
			work->asked |= 1ul << i;
			if (!(rc = vah_commit(txn))) work->acked |= 1ul << i;
		} else {
			vah_rollback(txn);
		}
		if (rc) {
			HOLDS(!work->is_calm && (rc == VAH_DEVICE || rc == VAH_FAILED));
			break;
		}
	}
	return NULL;
}

/* Runs the threads over a store, and closes it; what the closing said. */
static int run(const char *dir, struct work *works, int is_calm)
{
	vah_store *store;
	pthread_t all[THREADS];
	pthread_barrier_t are_there;
	int rc = vah_open(dir, NULL, &store);
	for (int i = 0; i < THREADS; i++) works[i] = (struct work){ store, &are_there, i, is_calm, 0, 0 };
	if (rc) return rc;
	pthread_barrier_init(&are_there, NULL, THREADS);
	for (int i = 0; i < THREADS; i++) HOLDS(!pthread_create(&all[i], NULL, commit_each, &works[i]));
	for (int i = 0; i < THREADS; i++) pthread_join(all[i], NULL);
	pthread_barrier_destroy(&are_there);
	return vah_close(store);
}

/* Opens the store again: each commit that was acknowledged is there, and none that was not asked. */
static void kept(const char *dir, const struct work *works)
{
	vah_store *store;
	vah_txn *txn;
	uint64_t n;
	OK(vah_open(dir, NULL, &store));
	OK(vah_begin(store, &txn));
	for (int t = 0; t < THREADS; t++)
		for (int i = 0; i < EACH; i++) {
			unsigned char key[2] = { (unsigned char)(t * 31), (unsigned char)i };
			int rc = vah_fetch(txn, key, 2, &n);
			HOLDS(rc == VAH_OK || rc == VAH_NOT_FOUND);
			HOLDS(rc == VAH_OK ? (works[t].asked >> i & 1) && n == (uint64_t)i : !(works[t].acked >> i & 1));
		}
	OK(vah_commit(txn));
	OK(vah_close(store));
}

/* Commits of threads that are there at once share syncs. Alone, each would make two, so that no round had fewer than it has commits; where the machine lets
 * few of the threads run at once, one of the next rounds shows it. */
static void share_syncs(const char *folder)
{
	struct work works[THREADS];
	unsigned long syncs = THREADS * EACH;
	for (int i = 0; i < ROUNDS && syncs >= THREADS * EACH; i++) {
		char dir[4096];
		unsigned long before = vah_test_syncs;
		snprintf(dir, sizeof dir, "%.4000s/calm%d", folder, i);
		OK(run(dir, works, 1));
		syncs = vah_test_syncs - before;
		kept(dir, works);
	}
	HOLDS(syncs < THREADS * EACH);
}

static void *wait_for_key(void *arg)
{
	OK(vah_insert(arg, "k", 1, 1));
	return NULL;
}

/* A commit whose locks an older transaction waits for is forced, though that one is in a call. */
static void awaited(const char *dir)
{
	vah_store *store;
	vah_txn *old, *young;
	vah_info info;
	pthread_t thread;
	OK(vah_open(dir, NULL, &store));
	OK(vah_begin(store, &old));
	OK(vah_begin(store, &young));
	OK(vah_insert(young, "k", 1, 2));
	OK(vah_delete(young, "k", 1));
	HOLDS(!pthread_create(&thread, NULL, wait_for_key, old));
	do {
		usleep(1000);
		OK(vah_stat(store, &info));
	} while (!info.waits);
	OK(vah_commit(young));
	pthread_join(thread, NULL);
	OK(vah_commit(old));
	OK(vah_close(store));
}

int main(int argc, char **argv)
{
	char dir[4096], number[32];
	struct work works[THREADS];
	int step = argc > 2 ? atoi(argv[2]) : 1, stopped = 0, rc = 1;
	if (argc < 2) return 1;
	setenv("VAH_SLOW_SYNC", "2000", 1);
	share_syncs(argv[1]);
	unsetenv("VAH_SLOW_SYNC");
	for (int n = 1; rc; n += step) {
		snprintf(dir, sizeof dir, "%s/%d", argv[1], n);
		snprintf(number, sizeof number, "%d", n);
		setenv("VAH_FAIL_AT", number, 1);
		rc = run(dir, works, 0);
		unsetenv("VAH_FAIL_AT");
		kept(dir, works);
		stopped += rc != 0;
	}
	HOLDS(stopped >= 10 / step);
	snprintf(dir, sizeof dir, "%s/awaited", argv[1]);
	awaited(dir);
	return 0;
}
