/* A child after fork() is refused each call, harms nothing of the parent's, and may have a store of its own; also where it is made while the parent's
 * threads are within calls, so that locks are held which nobody lets go of in the child. forked FOLDER [CHILDREN] */
#define _GNU_SOURCE
#include "test.h"
#include <pthread.h>
#include <stdatomic.h>
#include <sys/wait.h>
#include <unistd.h>

static char folder[4096];

/* Every call of the parent's store and transaction. */
static void is_refused(vah_store *store, vah_txn *txn)
{
	vah_store *second;
	vah_txn *more;
	vah_entry entry;
	vah_ref ref;
	vah_info info;
	uint64_t n;
	size_t count;
	IS(vah_insert(txn, "b", 1, 2), VAH_FORKED);
	IS(vah_put(txn, "b", 1, 2, NULL, NULL), VAH_FORKED);
	IS(vah_fetch(txn, "b", 1, &n), VAH_FORKED);
	IS(vah_delete(txn, "b", 1), VAH_FORKED);
	IS(vah_seek(txn, "b", 1, &entry), VAH_FORKED);
	IS(vah_prev(txn, "b", 1, &entry), VAH_FORKED);
	IS(vah_last(txn, &entry), VAH_FORKED);
	IS(vah_scan(txn, "a", 1, "b", 1, &entry, 1, &count), VAH_FORKED);
	IS(vah_scan_refs(txn, "a", 1, "b", 1, &ref, 1, &count), VAH_FORKED);
	IS(vah_set_wait(txn, 1), VAH_FORKED);
	IS(vah_savepoint(txn, &n), VAH_FORKED);
	IS(vah_roll_to(txn, 0), VAH_FORKED);
	IS(vah_commit(txn), VAH_FORKED);
	IS(vah_rollback(txn), VAH_FORKED);
	IS(vah_again(txn), VAH_FORKED);
	IS(vah_begin(store, &more), VAH_FORKED);
	IS(vah_stat(store, &info), VAH_FORKED);
	IS(vah_flush(store), VAH_FORKED);
	IS(vah_checkpoint(store), VAH_FORKED);
	IS(vah_switch(store), VAH_FORKED);
	IS(vah_copy(store, "never_made"), VAH_FORKED);
	IS(vah_copy_with(store, "never_made", NULL, NULL), VAH_FORKED);
	IS(vah_close(store), VAH_FORKED);
	IS(vah_close(store), VAH_CLOSED);
	IS(vah_flush(store), VAH_CLOSED);
	IS(vah_open(folder, NULL, &second), VAH_LOCKED);
}

static void *insert(void *txn)
{
	OK(vah_insert(txn, "k", 1, 2));
	return NULL;
}

/* A store of the child's own, with two threads of which one waits for the other. */
static void has_own_store(int number)
{
	char dir[4200];
	vah_store *own;
	vah_txn *old, *young;
	pthread_t thread;
	snprintf(dir, sizeof dir, "%s_child%d", folder, number);
	OK(vah_open(dir, NULL, &own));
	OK(vah_begin(own, &old));
	OK(vah_begin(own, &young));
	OK(vah_insert(young, "k", 1, 1));
	HOLDS(!pthread_create(&thread, NULL, insert, old));
	usleep(2000);
	OK(vah_rollback(young));
	pthread_join(thread, NULL);
	OK(vah_commit(old));
	OK(vah_close(own));
}

static void is_well(pid_t child)
{
	int status;
	HOLDS(child > 0 && waitpid(child, &status, 0) == child);
	HOLDS(WIFEXITED(status) && WEXITSTATUS(status) == 0);
}

/* ---- beside threads at work ---- */

enum { THREADS = 4 };
static vah_store *store;
static atomic_int stop;

/* Commits, waits for the others and gives way to them. */
static void *work(void *arg)
{
	unsigned mix = (unsigned)(size_t)arg * 2654435761u;
	while (!atomic_load(&stop)) {
		vah_txn *txn;
		int rc;
		OK(vah_begin(store, &txn));
		for (int i = 0; i < 4; i++) {
			char key[2] = { 'w', (char)('a' + ((mix = mix * 1664525u + 1013904223u) >> 29)) };
			while ((rc = vah_put(txn, key, 2, mix, NULL, NULL)) == VAH_GIVE_WAY) OK(vah_again(txn));
			OK(rc);
		}
		OK(vah_commit(txn));
	}
	return NULL;
}

static void beside_threads(vah_txn *txn, int children)
{
	pthread_t all[THREADS];
	for (size_t i = 0; i < THREADS; i++) HOLDS(!pthread_create(&all[i], NULL, work, (void *)i));
	for (int i = 0; i < children; i++) {
		usleep(1500);
		pid_t child = fork();
		if (!child) {
			alarm(250); /* a lock that nobody lets go of would hold it for ever */
			is_refused(store, txn);
			has_own_store(i + 1);
			_exit(0);
		}
		is_well(child);
	}
	atomic_store(&stop, 1);
	for (int i = 0; i < THREADS; i++) pthread_join(all[i], NULL);
}

/* The parent closes its store and opens it again while a child, as one that is yet to exec, has copies of the descriptors. */
static void opened_beside_child(void)
{
	int ends[2];
	char byte;
	HOLDS(!pipe(ends));
	pid_t child = fork();
	if (!child) {
		close(ends[1]);
		_exit(read(ends[0], &byte, 1) != 0); /* until the parent is done */
	}
	close(ends[0]);
	OK(vah_close(store));
	OK(vah_open(folder, NULL, &store));
	close(ends[1]);
	is_well(child);
}

int main(int argc, char **argv)
{
	vah_txn *txn;
	uint64_t n;
	if (argc < 2) return 1;
	snprintf(folder, sizeof folder, "%.4000s/store", argv[1]);
	OK(vah_open(folder, NULL, &store));
	OK(vah_begin(store, &txn));
	OK(vah_insert(txn, "a", 1, 1));
	pid_t child = fork();
	if (!child) {
		is_refused(store, txn);
		has_own_store(0);
		_exit(0);
	}
	is_well(child);
	OK(vah_insert(txn, "c", 1, 3));
	OK(vah_commit(txn));
	OK(vah_begin(store, &txn));
	OK(vah_fetch(txn, "a", 1, &n));
	IS(vah_fetch(txn, "b", 1, &n), VAH_NOT_FOUND);
	beside_threads(txn, argc > 2 ? atoi(argv[2]) : 12);
	OK(vah_commit(txn));
	opened_beside_child();
	OK(vah_close(store));
	return 0;
}
