/* Openings that only read: several at once, beside one that writes, over stores that were killed, and what they refuse. None changes a byte of the files. Built with -DVAH_TEST.
 * looks FOLDER [KILLS] */
#define _GNU_SOURCE
#include "test.h"
#include <dirent.h>
#include <errno.h>
#include <fcntl.h>
#include <pthread.h>
#include <signal.h>
#include <sys/stat.h>
#include <sys/wait.h>
#include <unistd.h>

static char folder[3000];
static uint64_t seed = 3;
static unsigned chance(unsigned n) { seed = seed * 6364136223846793005u + 1442695040888963407u; return (unsigned)(seed >> 33) % n; }

static const char *in_folder(const char *name)
{
	static char at[4096];
	snprintf(at, sizeof at, "%.2990s/%.1000s", folder, name);
	return at;
}

static vah_config to_read(void)
{
	vah_config config = VAH_CONFIG_INIT;
	config.frames = 8;
	config.cache_bytes = 0;
	config.read_only = 1;
	return config;
}

static vah_store *open_to_read(const char *dir)
{
	vah_config config = to_read();
	vah_store *store;
	OK(vah_open(dir, &config, &store));
	return store;
}

static vah_store *open_to_write(const char *dir)
{
	vah_config config = VAH_CONFIG_INIT;
	vah_store *store;
	config.frames = 8;
	config.cache_bytes = 0;
	config.redo_bytes = config.log_bytes = 100000;
	OK(vah_open(dir, &config, &store));
	return store;
}

/* ---- the bytes of a folder's files, and when each was changed ---- */

struct sum { uint64_t bytes, len; struct timespec changed; };

static struct sum sum_of(const char *dir, const char *name)
{
	static uint8_t bytes[1 << 16];
	char at[4200];
	struct sum sum = { UINT64_C(0xcbf29ce484222325), 0, { 0, 0 } };
	struct stat st;
	snprintf(at, sizeof at, "%.4000s/%s", dir, name);
	int fd = open(at, O_RDONLY);
	if (fd < 0) return sum;
	HOLDS(!fstat(fd, &st));
	for (ssize_t n; (n = read(fd, bytes, sizeof bytes)) > 0; sum.len += (uint64_t)n)
		for (ssize_t i = 0; i < n; i++) sum.bytes = (sum.bytes ^ bytes[i]) * UINT64_C(0x100000001b3);
	sum.changed = st.st_mtim;
	close(fd);
	return sum;
}

struct sums { struct sum of[3]; int names; };

static struct sums sums_of(const char *dir)
{
	static const char *const names[] = { "log", "log2", "pages" };
	struct sums sums;
	memset(&sums, 0, sizeof sums);
	for (int i = 0; i < 3; i++) sums.of[i] = sum_of(dir, names[i]);
	DIR *entries = opendir(dir);
	while (entries && readdir(entries)) sums.names++;
	if (entries) closedir(entries);
	return sums;
}

static void are_the_same(const char *dir, const struct sums *before)
{
	struct sums now = sums_of(dir);
	HOLDS(!memcmp(&now, before, sizeof now));
}

/* ---- what a store has ---- */

struct entries { int count; uint64_t hash; };

static struct entries entries_of(vah_store *store)
{
	struct entries all = { 0, UINT64_C(0xcbf29ce484222325) };
	vah_txn *txn;
	vah_entry at;
	OK(vah_begin(store, &txn));
	for (int rc = vah_seek(txn, "\0", 1, &at); !rc; rc = vah_next(txn, at.key, at.len, &at), all.count++) {
		for (int i = 0; i < at.len; i++) all.hash = (all.hash ^ at.key[i]) * UINT64_C(0x100000001b3);
		all.hash = (all.hash ^ at.rid) * UINT64_C(0x100000001b3);
	}
	OK(vah_commit(txn));
	return all;
}

static int are_equal(const struct entries *a, const struct entries *b) { return a->count == b->count && a->hash == b->hash; }

/* ---- a store that is killed ---- */

/* Transactions by chance, of which the last one is open when the process ends, at the latest. */
static void work(const char *dir)
{
	vah_store *store = open_to_write(dir);
	for (int t = 0; ; t++) {
		vah_txn *txn;
		OK(vah_begin(store, &txn));
		for (unsigned i = chance(40); i > 0; i--) {
			uint8_t key[200];
			unsigned k = chance(500);
			memset(key, (int)(k % 251 + 1), sizeof key);
			memcpy(key, &k, 2);
			int rc = chance(3) ? vah_put(txn, key, 2 + k % 198, chance(1000), NULL, NULL) : vah_delete(txn, key, 2 + k % 198);
			HOLDS(rc == VAH_OK || rc == VAH_NOT_FOUND);
		}
		if (t == 60) _exit(0);
		OK(chance(4) ? vah_commit(txn) : vah_rollback(txn));
		if (!chance(9)) OK(vah_checkpoint(store));
		if (!chance(15)) OK(vah_switch(store));
	}
}

/* A life that is killed within a call of its device, of which the next number is chosen by chance. */
static void kill_one(const char *dir)
{
	char number[32];
	int status;
	snprintf(number, sizeof number, "%u", 1 + chance(260));
	unsigned of_child = chance(1u << 30);
	pid_t child = fork();
	if (!child) {
		seed = of_child;
		setenv("VAH_KILL_AT", number, 1);
		work(dir);
	}
	HOLDS(child > 0 && waitpid(child, &status, 0) == child);
	HOLDS(WIFSIGNALED(status) ? WTERMSIG(status) == SIGKILL : WIFEXITED(status) && WEXITSTATUS(status) == 0);
}

/* Copies the files of a store that is not open; those that the other folder had are gone. */
static void copy_files(const char *dir, const char *to)
{
	static uint8_t bytes[1 << 16];
	static const char *const names[] = { "log", "log2", "pages" };
	HOLDS(!mkdir(to, 0700) || errno == EEXIST);
	for (int i = 0; i < 3; i++) {
		char from_at[4200], to_at[4200];
		snprintf(from_at, sizeof from_at, "%.4000s/%s", dir, names[i]);
		snprintf(to_at, sizeof to_at, "%.4000s/%s", to, names[i]);
		unlink(to_at);
		int in = open(from_at, O_RDONLY), out = in < 0 ? -1 : open(to_at, O_WRONLY | O_CREAT | O_EXCL, 0600);
		for (ssize_t n; in >= 0 && (n = read(in, bytes, sizeof bytes)) > 0; ) HOLDS(write(out, bytes, (size_t)n) == n);
		if (in >= 0) {
			close(in);
			close(out);
		}
	}
}

/* What is shown is what an opening shows, and the files are as they were: of each store that a kill left, in its opening too. */
static void killed(int kills)
{
	char dir[4096], to[4096];
	int looked = 0, is_made = 0;
	snprintf(dir, sizeof dir, "%s", in_folder("killed"));
	snprintf(to, sizeof to, "%s", in_folder("killed_copy"));
	for (int i = 0; i < kills; i++) {
		vah_config config = to_read();
		vah_store *store;
		kill_one(dir);
		struct sums before = sums_of(dir);
		int rc = vah_open(dir, &config, &store);
		are_the_same(dir, &before);
		if (rc) { /* the first life was killed before the store was made */
			HOLDS(!is_made && (rc == VAH_NOT_A_STORE || rc == VAH_DEVICE));
			continue;
		}
		is_made = 1;
		struct entries shown = entries_of(store);
		OK(vah_close(store));
		are_the_same(dir, &before);
		copy_files(dir, to);
		store = open_to_write(to);
		struct entries found = entries_of(store);
		HOLDS(are_equal(&shown, &found));
		OK(vah_close(store));
		looked++;
		if (i % 40 == 39) { /* else the redo grows from kill to kill */
			store = open_to_write(dir);
			found = entries_of(store);
			HOLDS(are_equal(&shown, &found));
			OK(vah_close(store));
		}
	}
	HOLDS(looked > kills * 3 / 4);
}

/* ---- several at once, and beside one that writes ---- */

static void together(void)
{
	enum { LOOKERS = 5 };
	char dir[4096];
	vah_store *all[LOOKERS], *store;
	vah_config config = to_read();
	snprintf(dir, sizeof dir, "%s", in_folder("together"));
	kill_one(dir);
	kill_one(dir);
	struct sums before = sums_of(dir);
	for (int i = 0; i < LOOKERS; i++) all[i] = open_to_read(dir);
	IS(vah_open(dir, NULL, &store), VAH_LOCKED);
	struct entries first = entries_of(all[0]);
	for (int i = 1; i < LOOKERS; i++) {
		struct entries found = entries_of(all[i]);
		HOLDS(are_equal(&found, &first));
	}
	/* in another process too */
	int status;
	pid_t child = fork();
	if (!child) {
		vah_store *own = open_to_read(dir);
		struct entries found = entries_of(own);
		OK(vah_close(own));
		_exit(!are_equal(&found, &first));
	}
	HOLDS(child > 0 && waitpid(child, &status, 0) == child && !status);
	for (int i = 0; i < LOOKERS - 1; i++) OK(vah_close(all[i]));
	IS(vah_open(dir, NULL, &store), VAH_LOCKED);
	OK(vah_close(all[LOOKERS - 1]));
	are_the_same(dir, &before);
	store = open_to_write(dir);
	IS(vah_open(dir, &config, &all[0]), VAH_LOCKED);
	HOLDS(strstr(vah_last_error(), "the store is open elsewhere"));
	OK(vah_close(store));
	OK(vah_close(open_to_read(dir)));
}

/* ---- what is refused ---- */

static void is_refused_with(int rc)
{
	IS(rc, VAH_READ_ONLY);
	HOLDS(strstr(vah_last_error(), "the store was opened to be read only"));
}

static void changes(void)
{
	char dir[4096];
	vah_store *store;
	vah_txn *txn;
	vah_info info;
	uint64_t rid = 0;
	snprintf(dir, sizeof dir, "%s", in_folder("changes"));
	store = open_to_write(dir);
	OK(vah_begin(store, &txn));
	OK(vah_put(txn, "apple", 5, 7, NULL, NULL));
	OK(vah_commit(txn));
	OK(vah_close(store));
	struct sums before = sums_of(dir);
	store = open_to_read(dir);
	OK(vah_begin(store, &txn));
	is_refused_with(vah_insert(txn, "pear", 4, 1));
	is_refused_with(vah_insert(txn, "apple", 5, 1));
	is_refused_with(vah_put(txn, "apple", 5, 8, NULL, NULL));
	is_refused_with(vah_delete(txn, "apple", 5));
	is_refused_with(vah_delete(txn, "none", 4));
	OK(vah_fetch(txn, "apple", 5, &rid)); /* it goes on */
	HOLDS(rid == 7);
	IS(vah_fetch(txn, "pear", 4, &rid), VAH_NOT_FOUND);
	OK(vah_commit(txn));
	for (int i = 0; i < 100; i++) {
		OK(vah_begin(store, &txn));
		OK(vah_fetch(txn, "apple", 5, &rid));
		OK(i % 2 ? vah_commit(txn) : vah_rollback(txn));
	}
	is_refused_with(vah_checkpoint(store));
	is_refused_with(vah_switch(store));
	is_refused_with(vah_flush(store));
	OK(vah_stat(store, &info));
	HOLDS(!info.active && !info.has_failed);
	OK(vah_close(store));
	are_the_same(dir, &before);
}

/* Where no store is, none is made, nor a folder. */
static void of_none(void)
{
	vah_config config = to_read();
	vah_store *store = NULL;
	struct stat st;
	IS(vah_open(in_folder("none/here"), &config, &store), VAH_DEVICE);
	HOLDS(errno == ENOENT && stat(in_folder("none"), &st) && errno == ENOENT);
	HOLDS(!mkdir(in_folder("empty"), 0700));
	IS(vah_open(in_folder("empty"), &config, &store), VAH_NOT_A_STORE);
	HOLDS(strstr(vah_last_error(), "there is no `log` in it"));
	HOLDS(!rmdir(in_folder("empty"))); /* which is empty still */
	config.read_only = 2;
	IS(vah_open(in_folder("changes"), &config, &store), VAH_INVALID);
	config.read_only = 1;
	config.size = offsetof(vah_config, read_only); /* of the release before, which has no such field */
	OK(vah_open(in_folder("changes"), &config, &store));
	vah_txn *txn;
	OK(vah_begin(store, &txn));
	OK(vah_put(txn, "pear", 4, 1, NULL, NULL));
	OK(vah_rollback(txn));
	OK(vah_close(store));
}

/* A copy of a store that is only read is what it shows. */
static void copied(void)
{
	char dir[4096], to[4096];
	vah_store *store;
	snprintf(dir, sizeof dir, "%s", in_folder("together"));
	snprintf(to, sizeof to, "%s", in_folder("copy"));
	kill_one(dir);
	struct sums before = sums_of(dir);
	store = open_to_read(dir);
	struct entries shown = entries_of(store);
	OK(vah_copy(store, to));
	OK(vah_close(store));
	are_the_same(dir, &before);
	store = open_to_write(to);
	struct entries found = entries_of(store);
	HOLDS(are_equal(&shown, &found));
	OK(vah_close(store));
}

int main(int argc, char **argv)
{
	if (argc < 2) return 1;
	snprintf(folder, sizeof folder, "%s", argv[1]);
	HOLDS(!mkdir(folder, 0700) || errno == EEXIST);
	changes();
	of_none();
	together();
	killed(argc > 2 ? atoi(argv[2]) : 300);
	copied();
	return 0;
}
