/* Copies of a store in use: beside threads that commit, into folders of all kinds, given up, where calls on the copy or on the store fail, and over kills. Built with
 * -DVAH_TEST. copies FOLDER [COPIES [STEP]]: so many beside threads; with a STEP each STEPth call of those that are tried fails, or is that of a kill. copies FOLDER disk: FOLDER/small
 * is a small disk, which fills up. */
#define _GNU_SOURCE
#include "test.h"
#include <dirent.h>
#include <errno.h>
#include <fcntl.h>
#include <pthread.h>
#include <signal.h>
#include <stdatomic.h>
#include <sys/stat.h>
#include <sys/wait.h>
#include <unistd.h>

enum { THREADS = 4, SLOTS = 40, PARTS = 3 };
static char folder[3000];
static int step = 1;

static const char *in_folder(const char *name)
{
	static _Thread_local char at[2][4096], next;
	next = !next;
	snprintf(at[(int)next], sizeof at[0], "%.2990s/%.1000s", folder, name);
	return at[(int)next];
}

static vah_store *open_at(const char *dir)
{
	vah_config config = VAH_CONFIG_INIT;
	vah_store *store;
	config.frames = 16;
	config.cache_bytes = 0;
	config.redo_bytes = config.log_bytes = 300000;
	OK(vah_open(dir, &config, &store));
	return store;
}

/* How many names a folder has; -1 where it is not there. */
static int names_in(const char *dir)
{
	int count = -2;
	DIR *entries = opendir(dir);
	if (!entries) return -1;
	while (readdir(entries)) count++;
	closedir(entries);
	return count;
}

static int remove_folder(const char *dir)
{
	static const char *const names[] = { "log", "log2", "pages", "log.part", "log2.part", "pages.part" };
	char at[4200];
	for (int i = 0; i < 6; i++) {
		snprintf(at, sizeof at, "%.4000s/%s", dir, names[i]);
		unlink(at);
	}
	return rmdir(dir);
}

/* ---- who works beside a copy ---- */

/* A thread's transactions: each puts its number to all parts of one of its slots, and long keys with them, so that pages split. */
struct worker { vah_store *store; pthread_t thread; int number, may_fail; atomic_ulong asked, acked; };
static struct worker workers[THREADS];
static atomic_int stop;

static size_t key_of(int number, unsigned long slot, int part, uint8_t *key)
{
	memset(key, 'x', 150);
	key[0] = (uint8_t)(1 + part);
	key[1] = (uint8_t)(slot * 37 + 1);
	key[2] = (uint8_t)(number + 1);
	return 3 + slot * 3;
}

static int put_parts(vah_txn *txn, int number, unsigned long n)
{
	uint8_t key[256];
	int rc = VAH_OK;
	for (int part = 0; !rc && part < PARTS; part++)
		rc = vah_put(txn, key, key_of(number, n % SLOTS, part, key), n, NULL, NULL);
	return rc;
}

/* One transaction, again where it gives way; each fifth is rolled back first. */
static int commit_one(struct worker *w, unsigned long n)
{
	vah_txn *txn = NULL;
	int rc = vah_begin(w->store, &txn), again = 0;
	while (!rc && ((rc = put_parts(txn, w->number, n)) == VAH_GIVE_WAY || (!rc && n % 5 == 0 && !again++)))
		rc = vah_again(txn);
	atomic_store(&w->asked, n);
	if (!rc && !(rc = vah_commit(txn))) {
		atomic_store(&w->acked, n);
		return VAH_OK;
	}
	vah_rollback(txn);
	return rc;
}

static void *work(void *arg)
{
	struct worker *w = arg;
	int rc = VAH_OK;
	for (unsigned long n = atomic_load(&w->acked) + 1; !rc && !atomic_load(&stop); n++) {
		rc = commit_one(w, n);
		if (!rc && n % 50 == 0) rc = vah_checkpoint(w->store);
		if (!rc && n % 70 == 0 && (rc = vah_switch(w->store)) == VAH_ACTIVE) rc = VAH_OK;
	}
	HOLDS(!rc || (w->may_fail && (rc == VAH_DEVICE || rc == VAH_FAILED)));
	return NULL;
}

/* Begins a life of so many threads on a store, as one that was never used. */
static void start_work(vah_store *store, int threads, int may_fail)
{
	atomic_store(&stop, 0);
	for (int i = 0; i < threads; i++) {
		workers[i].store = store;
		workers[i].number = i;
		workers[i].may_fail = may_fail;
		HOLDS(!pthread_create(&workers[i].thread, NULL, work, &workers[i]));
	}
}

static void end_work(int threads)
{
	atomic_store(&stop, 1);
	for (int i = 0; i < threads; i++) pthread_join(workers[i].thread, NULL);
}

static void forget_work(void)
{
	for (int i = 0; i < THREADS; i++) {
		atomic_store(&workers[i].asked, 0);
		atomic_store(&workers[i].acked, 0);
	}
}

/* Waits until each has committed a few. */
static void let_work(int threads)
{
	unsigned long from[THREADS];
	for (int i = 0; i < threads; i++) from[i] = atomic_load(&workers[i].acked);
	for (int i = 0; i < threads; i++)
		while (atomic_load(&workers[i].acked) < from[i] + 3) usleep(500);
}

/* What a thread's slots have: each part of one the same number, in which no two differ but by the last transactions. The greatest number that is there. */
static unsigned long look_at(vah_txn *txn, int number)
{
	uint64_t rids[SLOTS], most = 0;
	for (unsigned long slot = 0; slot < SLOTS; slot++) {
		rids[slot] = 0;
		for (int part = 0; part < PARTS; part++) {
			uint8_t key[256];
			uint64_t rid = 0;
			int rc = vah_fetch(txn, key, key_of(number, slot, part, key), &rid);
			HOLDS(rc == VAH_OK || rc == VAH_NOT_FOUND);
			HOLDS(!part || rid == rids[slot]); /* whole, or not at all */
			rids[slot] = rid;
		}
		HOLDS(!rids[slot] || rids[slot] % SLOTS == slot);
		if (rids[slot] > most) most = rids[slot];
	}
	/* and all before it: a front of what this thread did, one after another */
	for (unsigned long n = most; n > 0 && n + SLOTS > most; n--) HOLDS(rids[n % SLOTS] == n);
	return most;
}

/* Opens a store and looks at all that the threads did: no more than they asked, and no less than was acknowledged. */
static void look(const char *dir, const unsigned long *acked)
{
	vah_store *store = open_at(dir);
	vah_txn *txn;
	OK(vah_begin(store, &txn));
	for (int i = 0; i < THREADS; i++) {
		unsigned long most = look_at(txn, i);
		HOLDS(most >= acked[i] && most <= atomic_load(&workers[i].asked));
	}
	OK(vah_commit(txn));
	OK(vah_close(store));
}

static void note_acked(unsigned long *acked)
{
	for (int i = 0; i < THREADS; i++) acked[i] = atomic_load(&workers[i].acked);
}

/* What was acknowledged when the last copy ended. */
static unsigned long acked_at_end[THREADS];
extern void (*vah_test_at_copy_end)(void);
static void at_copy_end(void) { note_acked(acked_at_end); }

/* ---- folders ---- */

static int copy_to(vah_store *store, const char *name) { return vah_copy(store, in_folder(name)); }

static void write_file(const char *at)
{
	int fd = open(at, O_WRONLY | O_CREAT, 0600);
	HOLDS(fd >= 0 && write(fd, "x", 1) == 1);
	close(fd);
}

/* Half a copy is no store, whoever opens it, and is told as one. */
static void is_half(const char *name)
{
	vah_store *store = NULL;
	vah_config config = VAH_CONFIG_INIT;
	for (int reads = 0; reads < 2; reads++) {
		config.read_only = (uint64_t)reads;
		IS(vah_open(in_folder(name), &config, &store), VAH_NOT_A_STORE);
		HOLDS(!store && strstr(vah_last_error(), "a copy or a load into it was not finished"));
	}
}

/* So is a copy that is under way. */
static int looked;
static void look_at_end(void)
{
	is_half("new");
	HOLDS(names_in(in_folder("new")) == 3);
	looked++;
}

/* A folder by a path from the current one, which lies in the store's own, beside it, or nowhere. */
static void relative_paths(vah_store *store)
{
	char here[4096];
	HOLDS(getcwd(here, sizeof here) && !chdir(in_folder("store")));
	IS(vah_copy(store, "in_it"), VAH_NOT_EMPTY);
	IS(vah_copy(store, "."), VAH_NOT_EMPTY);
	OK(vah_copy(store, "../beside_it"));
	HOLDS(!chdir(".."));
	IS(vah_copy(store, "store"), VAH_NOT_EMPTY);
	OK(vah_copy(store, "beside/it/too"));
	HOLDS(!chdir(here));
	HOLDS(names_in(in_folder("beside_it")) == 3 && names_in(in_folder("beside/it/too")) == 3);
}

static void folders(void)
{
	unsigned long acked[THREADS];
	vah_store *store = open_at(in_folder("store")), *other;
	vah_txn *txn;
	char long_name[400];
	OK(copy_to(store, "of_nothing"));
	look(in_folder("of_nothing"), acked_at_end);
	start_work(store, THREADS, 0);
	let_work(THREADS);
	end_work(THREADS);
	note_acked(acked);
	OK(vah_begin(store, &txn));
	OK(put_parts(txn, 0, atomic_load(&workers[0].acked) + 1)); /* that is not committed, and not in the copy */
	vah_test_at_copy_end = look_at_end;
	OK(copy_to(store, "new"));
	HOLDS(looked == 1);
	vah_test_at_copy_end = NULL;
	OK(copy_to(store, "deep/er/new"));
	HOLDS(!mkdir(in_folder("empty"), 0700));
	OK(copy_to(store, "empty"));
	for (int i = 0; i < 3; i++) {
		const char *at = in_folder(i == 0 ? "new" : i == 1 ? "deep/er/new" : "empty");
		look(at, acked);
		HOLDS(names_in(at) == 3);
	}
	/* an uncommitted one is committed after the copies, and they are stores of their own */
	OK(vah_rollback(txn));
	other = open_at(in_folder("new"));
	IS(copy_to(store, "new"), VAH_NOT_EMPTY);
	HOLDS(strstr(vah_last_error(), "/new: it is not empty"));
	OK(vah_copy(other, in_folder("again")));
	OK(vah_close(other));
	look(in_folder("again"), acked);
	static const char *const within[] = { "store", "store/in/it", "store/../store/./in", "new/../store", "link", "link/in/it", "empty/../link/in" };
	HOLDS(!symlink("store", in_folder("link")));
	for (size_t i = 0; i < sizeof within / sizeof *within; i++) {
		IS(copy_to(store, within[i]), VAH_NOT_EMPTY);
		HOLDS(strstr(vah_last_error(), "it is the folder of the store, or lies in it"));
	}
	HOLDS(names_in(in_folder("store")) == 3); /* nothing was made in it */
	IS(copy_to(store, "store/log"), VAH_NOT_COPIED);
	HOLDS(errno == ENOTDIR || errno == EEXIST);
	write_file(in_folder("file"));
	IS(copy_to(store, "file"), VAH_NOT_COPIED);
	IS(copy_to(store, "file/under"), VAH_NOT_COPIED);
	IS(vah_copy(store, "/proc/none/here"), VAH_NOT_COPIED);
	HOLDS(errno == ENOENT && strstr(vah_last_error(), "/proc/none/here"));
	IS(vah_copy(store, ""), VAH_NOT_COPIED);
	relative_paths(store);
	memset(long_name, 'n', sizeof long_name - 1);
	long_name[sizeof long_name - 1] = 0;
	IS(copy_to(store, long_name), VAH_NOT_COPIED);
	HOLDS(errno == ENAMETOOLONG);
	IS(vah_copy(store, NULL), VAH_INVALID);
	IS(vah_copy(NULL, in_folder("none")), VAH_INVALID);
	HOLDS(names_in(in_folder("none")) == -1);
	/* half a copy is no store, and no folder for a copy */
	HOLDS(!mkdir(in_folder("half"), 0700));
	write_file(in_folder("half/log.part"));
	IS(copy_to(store, "half"), VAH_NOT_EMPTY);
	is_half("half");
	write_file(in_folder("half/log")); /* whatever else is there */
	is_half("half");
	OK(vah_close(store));
	IS(copy_to(store, "closed"), VAH_CLOSED);
	look(in_folder("store"), acked);
}

/* ---- beside threads ---- */

static void beside(int copies)
{
	vah_store *store = open_at(in_folder("beside"));
	forget_work();
	start_work(store, THREADS, 0);
	vah_test_at_copy_end = at_copy_end;
	for (int i = 0; i < copies; i++) {
		OK(copy_to(store, "copy"));
		look(in_folder("copy"), acked_at_end);
		HOLDS(!remove_folder(in_folder("copy")));
	}
	let_work(THREADS);
	end_work(THREADS);
	vah_test_at_copy_end = NULL;
	OK(vah_close(store));
}

/* ---- several at once, and a close ---- */

struct copying { vah_store *store; const char *dir; int rc; pthread_t thread; };

static void *copy_once(void *arg)
{
	struct copying *c = arg;
	c->rc = vah_copy(c->store, c->dir);
	return NULL;
}

/* Of one store one after another, and into one folder one alone. */
static void at_once(void)
{
	char dirs[2][4096];
	vah_store *stores[2] = { open_at(in_folder("once")), open_at(in_folder("once_other")) };
	int refused = 0;
	for (int same = 0; same < 2; same++)
		for (int i = 0; i < 20; i++) {
			struct copying both[2];
			int done = 0;
			for (int k = 0; k < 2; k++) {
				snprintf(dirs[k], sizeof dirs[k], "%s%d", in_folder("at"), same ? 0 : k);
				both[k] = (struct copying){ .store = stores[same ? k : 0], .dir = dirs[k] };
				HOLDS(!pthread_create(&both[k].thread, NULL, copy_once, &both[k]));
			}
			for (int k = 0; k < 2; k++) pthread_join(both[k].thread, NULL);
			for (int k = 0; k < 2; k++) {
				HOLDS(!both[k].rc || both[k].rc == (same ? VAH_NOT_EMPTY : VAH_BUSY));
				done += !both[k].rc;
				refused += !!both[k].rc;
			}
			HOLDS(same ? done == 1 : done >= 1);
			HOLDS(names_in(dirs[0]) == (both[0].rc && !same ? -1 : 3));
			for (int k = 0; k < 2; k++) remove_folder(dirs[k]);
		}
	HOLDS(refused >= 20);
	for (int k = 0; k < 2; k++) OK(vah_close(stores[k]));
}

/* A copy that goes on is given up by a close, and else it is whole. */
static void closed_beside(void)
{
	for (int i = 0; i < 20; i++) {
		vah_store *store = open_at(in_folder("closes"));
		char dir[4096];
		struct copying copy = { .store = store, .dir = dir };
		snprintf(dir, sizeof dir, "%s", in_folder("closed_copy"));
		HOLDS(!pthread_create(&copy.thread, NULL, copy_once, &copy));
		usleep((useconds_t)(i * 300));
		for (int rc; (rc = vah_close(store)); usleep(100)) IS(rc, VAH_ACTIVE);
		pthread_join(copy.thread, NULL);
		HOLDS(!copy.rc || copy.rc == VAH_BUSY || copy.rc == VAH_CLOSED);
		HOLDS(copy.rc ? names_in(dir) <= 0 : names_in(dir) == 3);
		remove_folder(dir);
	}
}

/* ---- progress ---- */

/* Who is told of a copy, and gives it up at that call. */
struct watching { vah_store *store; uint64_t bytes; int calls, gives_up_at, is_to_close; };

static int watch(void *with, uint64_t bytes)
{
	struct watching *w = with;
	vah_txn *txn;
	uint64_t rid;
	HOLDS(bytes > w->bytes);
	w->bytes = bytes;
	/* what is copied is no store yet, and the store itself goes on */
	is_half("watched");
	OK(vah_begin(w->store, &txn));
	IS(vah_fetch(txn, "none", 4, &rid), VAH_NOT_FOUND);
	OK(vah_commit(txn));
	if (w->is_to_close) IS(vah_close(w->store), VAH_ACTIVE);
	return ++w->calls == w->gives_up_at;
}

static off_t bytes_of(const char *name)
{
	static const char *const names[] = { "log", "log2", "pages" };
	off_t all = 0;
	for (int i = 0; i < 3; i++) {
		char at[4200];
		struct stat st;
		snprintf(at, sizeof at, "%.4000s/%s", in_folder(name), names[i]);
		HOLDS(!stat(at, &st));
		all += st.st_size;
	}
	return all;
}

/* Each call of its progress gives the copy up in turn: nothing is left of it. One that is not given up is told all of its bytes; one whose store another
 * thread wants to close is given up too. */
static void watched(void)
{
	vah_store *store = open_at(in_folder("watches"));
	vah_txn *txn;
	uint8_t key[250];
	int rc = VAH_STOPPED, at = 0;
	memset(key, 'k', sizeof key);
	OK(vah_begin(store, &txn));
	for (int i = 0; i < 4000; i++) {
		snprintf((char *)key, sizeof key, "%d", i);
		OK(vah_insert(txn, key, sizeof key, 1));
	}
	OK(vah_commit(txn));
	while (rc == VAH_STOPPED) {
		struct watching w = { .store = store, .gives_up_at = ++at };
		rc = vah_copy_with(store, in_folder("watched"), watch, &w);
		HOLDS(names_in(in_folder("watched")) == (rc ? 0 : 3));
		HOLDS(!rc || (rc == VAH_STOPPED && w.calls == at && strstr(vah_last_error(), "the copy was given up by its caller")));
		if (!rc) HOLDS((off_t)w.bytes >= bytes_of("watched") - 8192 && (off_t)w.bytes <= bytes_of("watched") + 8192);
	}
	OK(rc);
	HOLDS(at > 4);
	HOLDS(!remove_folder(in_folder("watched")));
	struct watching w = { .store = store, .is_to_close = 1 };
	IS(vah_copy_with(store, in_folder("watched"), watch, &w), VAH_BUSY);
	HOLDS(names_in(in_folder("watched")) == 0 && w.calls == 1);
	OK(vah_close(store));
}

/* ---- calls that fail ---- */

/* A folder into which a copy was not finished: it is empty, or none, or refused by its words, or the copy is whole. */
static void is_none_or_whole(const char *dir, const unsigned long *acked)
{
	vah_store *store = NULL;
	int names = names_in(dir);
	char at[4200];
	snprintf(at, sizeof at, "%.4000s/log.part", dir);
	if (names <= 0) {
		rmdir(dir);
		return;
	}
	if (access(at, F_OK)) {
		look(dir, acked);
	} else {
		IS(vah_open(dir, NULL, &store), VAH_NOT_A_STORE);
		HOLDS(!store && strstr(vah_last_error(), "a copy or a load into it was not finished"));
		HOLDS(names_in(dir) == names);
	}
	HOLDS(!remove_folder(dir));
}

/* Each call on the copy's files fails in turn, and each after it: the copy is refused, and the store goes on. */
static void each_call_of_copy(void)
{
	vah_store *store = open_at(in_folder("calls"));
	int rc = 1, n, refused = 0;
	forget_work();
	start_work(store, 2, 0);
	let_work(2);
	for (n = 1; rc; n += step) {
		char number[32];
		snprintf(number, sizeof number, "%d", n);
		setenv("VAH_COPY_FAIL_AT", number, 1);
		vah_test_at_copy_end = at_copy_end;
		note_acked(acked_at_end);
		rc = copy_to(store, "refused");
		unsetenv("VAH_COPY_FAIL_AT");
		HOLDS(!rc || (rc == VAH_NOT_COPIED && errno == EIO && strstr(vah_last_error(), "/refused: Input/output error")));
		is_none_or_whole(in_folder("refused"), acked_at_end);
		refused += rc != 0;
		if (n % 7 == 1) let_work(2); /* it goes on */
	}
	end_work(2);
	vah_test_at_copy_end = NULL;
	OK(vah_close(store));
	HOLDS(refused >= 15 / step);
}

/* The store's own calls fail beside a copy. */
static void each_call_of_store(void)
{
	int stopped = 0;
	for (int n = 1; n < 120; n += 3 * step) {
		char number[32], dir[64];
		unsigned long acked[THREADS];
		vah_store *store;
		snprintf(dir, sizeof dir, "fails%d", n);
		OK(vah_close(open_at(in_folder(dir))));
		forget_work();
		snprintf(number, sizeof number, "%d", n);
		setenv("VAH_FAIL_AT", number, 1);
		int rc = vah_open(in_folder(dir), NULL, &store);
		unsetenv("VAH_FAIL_AT");
		if (rc) continue;
		start_work(store, 2, 1);
		for (int i = 0; !rc && i < 40; i++) {
			rc = copy_to(store, "of_failed");
			HOLDS(!rc || rc == VAH_DEVICE || rc == VAH_FAILED);
			HOLDS(!rc || strstr(vah_last_error(), "(Input/output error)"));
			HOLDS(names_in(in_folder("of_failed")) == (rc ? 0 : 3));
			HOLDS(!remove_folder(in_folder("of_failed")));
		}
		end_work(2);
		stopped += rc != 0;
		note_acked(acked);
		rc = vah_close(store);
		HOLDS(!rc || rc == VAH_DEVICE || rc == VAH_FAILED);
		look(in_folder(dir), acked);
	}
	HOLDS(stopped >= 10 / step);
}

/* ---- kills ---- */

/* A life with copies between commits; what was acknowledged is told. */
static void life(const char *dir, int fd)
{
	vah_store *store = open_at(dir);
	struct worker w = { .store = store };
	for (unsigned long n = 1; n < 60; n++) {
		OK(commit_one(&w, n));
		HOLDS(write(fd, &n, sizeof n) == sizeof n);
		if (n % 20 == 0) {
			OK(copy_to(store, "of_killed"));
			HOLDS(!remove_folder(in_folder("of_killed")));
		}
		if (n % 25 == 0) OK(vah_switch(store));
	}
	OK(vah_close(store));
}

/* The process is killed within each call on the copy's files, or on the store's: the store has what was acknowledged, and the copy is none, or whole. */
static void kills(const char *variable, int by)
{
	int killed = 1, count = 0;
	for (int n = 1; killed && n < 400; n += by) {
		char dir[4096], number[32];
		unsigned long acked[THREADS] = { 0 };
		int status, ends[2];
		snprintf(number, sizeof number, "%d", n);
		snprintf(dir, sizeof dir, "%s%s%d", in_folder("killed"), variable, n);
		HOLDS(!pipe(ends));
		pid_t child = fork();
		if (!child) {
			close(ends[0]);
			setenv(variable, number, 1);
			life(dir, ends[1]);
			_exit(0);
		}
		close(ends[1]);
		while (read(ends[0], &acked[0], sizeof acked[0]) == sizeof acked[0]) { }
		close(ends[0]);
		HOLDS(child > 0 && waitpid(child, &status, 0) == child);
		killed = WIFSIGNALED(status) && WTERMSIG(status) == SIGKILL;
		HOLDS(killed || (WIFEXITED(status) && WEXITSTATUS(status) == 0));
		forget_work();
		atomic_store(&workers[0].asked, acked[0] + 1);
		look(dir, acked);
		acked[0] -= acked[0] % 20; /* the copy was begun then */
		is_none_or_whole(in_folder("of_killed"), acked);
		HOLDS(!remove_folder(dir));
		count += killed;
	}
	HOLDS(count >= 15 / by);
}

/* ---- a disk that fills up ---- */

static void small_disk(void)
{
	vah_store *store = open_at(in_folder("store"));
	unsigned long acked[THREADS];
	forget_work();
	start_work(store, THREADS, 0);
	while (copy_to(store, "small/copy") == VAH_OK) HOLDS(!remove_folder(in_folder("small/copy"))); /* the store grows */
	HOLDS(errno == ENOSPC && strstr(vah_last_error(), "small/copy: No space left on device"));
	IS(copy_to(store, "small/copy"), VAH_NOT_COPIED);
	HOLDS(names_in(in_folder("small/copy")) == 0); /* it took its files away */
	let_work(THREADS);
	end_work(THREADS);
	note_acked(acked);
	OK(vah_close(store));
	look(in_folder("store"), acked);
}

int main(int argc, char **argv)
{
	if (argc < 2) return 1;
	snprintf(folder, sizeof folder, "%s", argv[1]);
	if (argc > 2 && !strcmp(argv[2], "disk")) {
		small_disk();
		return 0;
	}
	if (argc > 3) step = atoi(argv[3]);
	folders();
	beside(argc > 2 ? atoi(argv[2]) : 60);
	at_once();
	closed_beside();
	watched();
	each_call_of_copy();
	each_call_of_store();
	kills("VAH_COPY_KILL_AT", step);
	kills("VAH_KILL_AT", 7 * step);
	return 0;
}
