/* The numbers of vah_stat, and what an opening tells of itself: how far it has come, and that it may be given up. numbers FOLDER */
#define _GNU_SOURCE
#include "test.h"
#include <sys/wait.h>
#include <unistd.h>

static const char *folder;
static char dir[4096];

/* ---- the numbers ---- */

static void count_commits(vah_store *store)
{
	vah_txn *txn;
	vah_info before, after;
	OK(vah_stat(store, &before));
	HOLDS(!before.restarts && !before.waits && before.syncs > 0 && before.log_bytes > 0); /* it was made */
	for (int i = 0; i < 10; i++) {
		OK(vah_begin(store, &txn));
		OK(vah_put(txn, &i, sizeof i, 1, NULL, NULL));
		OK(vah_commit(txn));
	}
	OK(vah_stat(store, &after));
	HOLDS(after.forces == before.forces + 10); /* nobody shares one */
	HOLDS(after.syncs >= before.syncs + 10);
	HOLDS(after.log_bytes >= before.log_bytes + 10 * 40 && after.log_bytes < before.log_bytes + 100000);
	OK(vah_flush(store));
	OK(vah_begin(store, &txn));
	OK(vah_again(txn));
	OK(vah_commit(txn));
	OK(vah_stat(store, &before));
	HOLDS(before.forces == after.forces + 1 && before.restarts == 1 && !before.waits);
	OK(vah_switch(store));
	OK(vah_stat(store, &after));
	HOLDS(after.page_writes > before.page_writes && !after.dirty_pages);
}

/* A caller of another version has fewer numbers, or more, which are 0. */
static void sizes(vah_store *store)
{
	struct { vah_info known; uint64_t later, beyond; } longer;
	vah_info info;
	memset(&longer, 0x55, sizeof longer);
	OK(vah_stat_with(store, &longer.known, sizeof longer - 8));
	HOLDS(!longer.later && longer.beyond == UINT64_C(0x5555555555555555) && longer.known.syncs);
	memset(&info, 0x55, sizeof info);
	OK(vah_stat_with(store, &info, offsetof(vah_info, restarts)));
	HOLDS(!info.active && info.restarts == UINT64_C(0x5555555555555555));
	IS(vah_stat_with(store, &info, 8), VAH_INVALID);
	IS(vah_stat_with(store, &info, 1 << 20), VAH_INVALID);
	IS(vah_stat_with(store, &info, SIZE_MAX), VAH_INVALID);
	IS(vah_stat_with(store, NULL, sizeof info), VAH_INVALID);
}

/* ---- an opening ---- */

struct told { uint64_t bytes; int calls, most; vah_store *other; };

/* Is told of more each time, and gives up after so many; what it calls may work with another store. */
static int on_progress(void *with, uint64_t bytes)
{
	struct told *told = with;
	vah_txn *txn;
	HOLDS(bytes > told->bytes);
	told->bytes = bytes;
	if (told->other) {
		OK(vah_begin(told->other, &txn));
		OK(vah_put(txn, "told", 4, bytes, NULL, NULL));
		OK(vah_commit(txn));
	}
	return ++told->calls == told->most;
}

/* A program that ends in the midst of its work, and leaves some MiB of log. */
static void leave_log(unsigned puts)
{
	int status;
	pid_t child = fork();
	if (!child) {
		vah_config config = VAH_CONFIG_INIT;
		vah_store *store;
		vah_txn *txn;
		config.redo_bytes = config.log_bytes = 0;
		OK(vah_open(dir, &config, &store));
		for (unsigned i = 0; i < puts; i++) {
			uint8_t key[VAH_KEY_MAX] = { 1, (uint8_t)(i % 7) };
			if (i % 1000 == 0) OK(vah_begin(store, &txn));
			OK(vah_put(txn, key, sizeof key, i, NULL, NULL));
			if (i % 1000 == 999) OK(vah_commit(txn));
		}
		_exit(0);
	}
	HOLDS(child > 0 && waitpid(child, &status, 0) == child && WIFEXITED(status) && WEXITSTATUS(status) == 0);
}

/* Gives the opening up at each of its calls, the last one too: then it is refused, and the next one is made as if there had been none. */
static void stop_at_each(vah_config *config)
{
	struct told told;
	vah_store *store = NULL;
	int rc, most = 0;
	config->with = &told;
	leave_log(8000);
	do {
		told = (struct told){ .most = ++most };
		rc = vah_open(dir, config, &store);
		IS(rc, told.calls == most ? VAH_STOPPED : VAH_OK);
		HOLDS(!rc == !!store);
	} while (rc);
	HOLDS(most > 3);
	OK(vah_flush(store));
	OK(vah_close(store));
}

static void opening(void)
{
	char other_dir[4096];
	vah_config config = VAH_CONFIG_INIT;
	vah_store *store = NULL;
	vah_txn *txn;
	uint64_t rid;
	struct told told = { .most = 2 };
	snprintf(other_dir, sizeof other_dir, "%.4000s/other", folder);
	config.progress = on_progress;
	config.with = &told;
	leave_log(40000);
	IS(vah_open(dir, &config, &store), VAH_STOPPED);
	HOLDS(!store && told.calls == 2 && strstr(vah_last_error(), "given up"));
	OK(vah_open(other_dir, NULL, &told.other));
	told.bytes = 0;
	told.most = 0;
	OK(vah_open(dir, &config, &store));
	HOLDS(told.calls > 6 && told.bytes > 2 << 20);
	OK(vah_begin(store, &txn));
	for (unsigned i = 0; i < 7; i++) {
		uint8_t key[VAH_KEY_MAX] = { 1, (uint8_t)i };
		OK(vah_fetch(txn, key, sizeof key, &rid));
		HOLDS(rid >= 39993 && rid % 7 == i);
	}
	OK(vah_commit(txn));
	int calls = told.calls;
	OK(vah_checkpoint(store));
	OK(vah_close(store));
	HOLDS(calls == told.calls); /* of the opening alone */
	OK(vah_close(told.other));
	stop_at_each(&config);
}

int main(int argc, char **argv)
{
	vah_store *store;
	if (argc < 2) return 1;
	folder = argv[1];
	snprintf(dir, sizeof dir, "%.4000s/store", folder);
	OK(vah_open(dir, NULL, &store));
	count_commits(store);
	sizes(store);
	OK(vah_close(store));
	opening();
	return 0;
}
