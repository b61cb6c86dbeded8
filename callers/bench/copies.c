/* What a copy of a store in use costs: commits of four threads, of one insert each, for so many seconds without a copy and then with one under way all the time,
 * the longest commit of either, and how fast the copies were. copies FOLDER [SECONDS [KEYS]] */
#define _GNU_SOURCE
#include "vahondrisa.h"
#include "work.h"
#include <pthread.h>
#include <stdatomic.h>
#include <sys/stat.h>
#include <unistd.h>

enum { THREADS = 4 };
static vah_store *store;
static atomic_int stop;

static double seconds(void) { return on(CLOCK_MONOTONIC); }

struct worker { pthread_t thread; uint64_t at; unsigned long commits; double longest; };
static struct worker workers[THREADS];

static void *work(void *arg)
{
	struct worker *w = arg;
	while (!atomic_load(&stop)) {
		vah_txn *txn;
		int rc;
		uint64_t key = mix(w->at++);
		double from = seconds();
		OK(vah_begin(store, &txn));
		while ((rc = vah_put(txn, &key, sizeof key, 1, NULL, NULL)) == VAH_GIVE_WAY) OK(vah_again(txn));
		OK(rc);
		OK(vah_commit(txn));
		double took = seconds() - from;
		if (took > w->longest) w->longest = took;
		w->commits++;
	}
	return NULL;
}

static void start(void)
{
	atomic_store(&stop, 0);
	for (int i = 0; i < THREADS; i++) {
		workers[i].commits = 0;
		workers[i].longest = 0;
		if (pthread_create(&workers[i].thread, NULL, work, &workers[i])) exit(1);
	}
}

static void end(const char *what, double took)
{
	unsigned long commits = 0;
	double longest = 0;
	atomic_store(&stop, 1);
	for (int i = 0; i < THREADS; i++) {
		pthread_join(workers[i].thread, NULL);
		commits += workers[i].commits;
		if (workers[i].longest > longest) longest = workers[i].longest;
	}
	printf("%s: %.0f commits a second, the longest took %.1f ms\n", what, (double)commits / took, longest * 1e3);
}

/* Takes a copy away; how many bytes it had. */
static double take_away(const char *dir)
{
	static const char *const names[] = { "log", "log2", "pages" };
	double bytes = 0;
	for (int i = 0; i < 3; i++) {
		char at[4200];
		struct stat st;
		snprintf(at, sizeof at, "%.4000s/%s", dir, names[i]);
		if (!stat(at, &st)) bytes += (double)st.st_size;
		unlink(at);
	}
	rmdir(dir);
	return bytes;
}

int main(int argc, char **argv)
{
	double each = argc > 2 ? atof(argv[2]) : 10, bytes = 0, took = 0, from;
	uint64_t keys = argc > 3 ? strtoull(argv[3], NULL, 10) : 400000;
	char to[4096];
	int copies = 0;
	if (argc < 2) return 1;
	snprintf(to, sizeof to, "%.4000s_copy", argv[1]);
	OK(vah_open(argv[1], NULL, &store));
	for (uint64_t i = 0; i < keys; i += 1000) {
		vah_txn *txn;
		OK(vah_begin(store, &txn));
		for (uint64_t k = i; k < i + 1000; k++) {
			uint64_t key[8] = { mix(k) };
			OK(vah_put(txn, key, sizeof key, k, NULL, NULL));
		}
		OK(vah_commit(txn));
	}
	OK(vah_switch(store));
	for (int i = 0; i < THREADS; i++) workers[i].at = ((uint64_t)i + 1) << 40;
	start();
	sleep((unsigned)each);
	end("without a copy", each);
	start();
	for (from = seconds(); seconds() - from < each; copies++) {
		double begun = seconds();
		OK(vah_copy(store, to));
		took += seconds() - begun;
		bytes += take_away(to);
	}
	end("beside a copy", seconds() - from);
	printf("%d copies of %.0f MB, %.0f MB a second\n", copies, bytes / copies / 1e6, bytes / took / 1e6);
	from = seconds();
	OK(vah_copy(store, to));
	took = seconds() - from;
	printf("a copy that nobody works beside: %.0f MB a second\n", take_away(to) / took / 1e6);
	OK(vah_close(store));
	return 0;
}
