/* Loads of rising keys: what a loaded store has, what is refused, and where calls on its files fail, or kill the process. Built with -DVAH_TEST. loads FOLDER [STEP]: each
 * STEPth call of those that are tried fails, or is that of a kill. */
#define _GNU_SOURCE
#include "test.h"
#include "../named.h"
#include <dirent.h>
#include <errno.h>
#include <signal.h>
#include <sys/stat.h>
#include <sys/wait.h>
#include <unistd.h>

static char folder[3000];
static int step = 1;

static const char *in_folder(const char *name)
{
	static char at[4096];
	snprintf(at, sizeof at, "%.2990s/%.1000s", folder, name);
	return at;
}

/* How many names a folder has; -1 where it is not there. */
static int names_in(const char *dir)
{
	int count = -2;
	DIR *entries = opendir(dir);
	if (!entries) return -1;
	while (readdir(entries)) count++;
	closedir(entries);
	return count;
}

static void remove_folder(const char *dir)
{
	static const char *const names[] = { "log", "log2", "pages", "log.part", "log2.part", "pages.part" };
	char at[4200];
	for (int i = 0; i < 6; i++) {
		snprintf(at, sizeof at, "%.4000s/%s", dir, names[i]);
		unlink(at);
	}
	rmdir(dir);
}

/* Who hands entries: key i is of `len` bytes, and ends in i; at `odd` one comes that is none, or falls, or the load is given up. */
enum oddity { NONE, EMPTY, LONG, FALLS, EQUAL, GIVES_UP, IS_NULL };
struct hand { int count, len, at, odd; enum oddity what; uint8_t keys[VAH_SCAN_MAX][256]; };

static void set_key(uint8_t *key, int len, int i)
{
	memset(key, 'k', (size_t)len);
	for (int k = 0; k < 4; k++)
		key[len - 1 - k] = (uint8_t)(i >> 8 * k);
}

static void make_odd(struct hand *h, vah_ref *entry)
{
	switch (h->what) {
	case EMPTY: entry->len = 0; break;
	case LONG: entry->len = 256; break;
	case FALLS: set_key((uint8_t *)(uintptr_t)entry->key, h->len, h->at - 2); break;
	case EQUAL: set_key((uint8_t *)(uintptr_t)entry->key, h->len, h->at - 1); break;
	case IS_NULL: entry->key = NULL; break;
	default: break;
	}
}

static int next(void *with, vah_ref *entries)
{
	struct hand *h = with;
	int count = 0;
	for (; count < VAH_SCAN_MAX && h->at < h->count; count++, h->at++) {
		set_key(h->keys[count], h->len, h->at);
		entries[count] = (vah_ref){ h->keys[count], (size_t)h->len, 7 + (uint64_t)h->at };
		if (h->what != NONE && h->at == h->odd) {
			if (h->what == GIVES_UP) return -1;
			make_odd(h, &entries[count]);
		}
	}
	return count;
}

static int load(const char *name, int count, int len, int odd, enum oddity what)
{
	static struct hand h;
	h = (struct hand){ .count = count, .len = len, .odd = odd, .what = what };
	return vah_load(in_folder(name), next, &h);
}

/* The store has just these entries, and goes on. */
static void has(const char *name, int count, int len)
{
	vah_store *store;
	vah_txn *txn;
	vah_entry entries[VAH_SCAN_MAX];
	uint8_t lo[] = { 0 }, hi[255], key[255];
	size_t found;
	int i = 0;
	memset(hi, 255, sizeof hi);
	OK(vah_open(in_folder(name), NULL, &store));
	OK(vah_begin(store, &txn));
	OK(vah_scan(txn, lo, 1, hi, sizeof hi, entries, VAH_SCAN_MAX, &found));
	while (found) {
		for (size_t k = 0; k < found; k++, i++) {
			set_key(key, len, i);
			HOLDS(entries[k].len == len && !memcmp(entries[k].key, key, (size_t)len) && entries[k].rid == 7 + (uint64_t)i);
		}
		if (vah_next(txn, entries[found - 1].key, entries[found - 1].len, &entries[0]) == VAH_NOT_FOUND) break;
		memcpy(key, entries[0].key, entries[0].len);
		OK(vah_scan(txn, key, entries[0].len, hi, sizeof hi, entries, VAH_SCAN_MAX, &found));
	}
	HOLDS(i == count);
	OK(vah_put(txn, "zz", 2, 1, NULL, NULL));
	OK(vah_commit(txn));
	OK(vah_close(store));
}

static void loaded(int count, int len)
{
	OK(load("loaded", count, len, 0, NONE));
	HOLDS(names_in(in_folder("loaded")) == 3);
	has("loaded", count, len);
	IS(load("loaded", count, len, 0, NONE), VAH_NOT_EMPTY);
	remove_folder(in_folder("loaded"));
}

/* The entries of an index and of a long value, handed one by one in the order of their keys. */
struct names { int at; uint8_t key[VAH_KEY_MAX], value[9000]; };

static int next_of_names(void *with, vah_ref *entry)
{
	struct names *n = with;
	size_t len = 0, front;
	uint64_t rid = 0;
	char city[16];
	int at = n->at++, rc;
	snprintf(city, sizeof city, "c%05d", at - 3);
	if (at < 2) /* the catalogue: its rows, and its guard */
		rc = vah_name_key(VAH_NAME_ROW, at ? "notes" : "city", at ? 5 : 4, NULL, 0, n->key, &len), rid = at ? NAMED_LONG : NAMED_INDEX;
	else if (at == 2)
		rc = vah_name_key(VAH_NAME_GUARD, "", 0, NULL, 0, n->key, &len);
	else if (at < 1003)
		rc = vah_name_key(VAH_NAME_ENTRY, "city", 4, city, 6, n->key, &len), rid = (uint64_t)at;
	else if (at == 1003)
		rc = vah_name_key(VAH_NAME_GUARD, "city", 4, NULL, 0, n->key, &len);
	else if ((rc = vah_name_key(VAH_NAME_PARTS, "notes", 5, "a", 1, n->key, &front)) == VAH_OK
		&& (rc = vah_long_part(n->key, front, n->value, sizeof n->value, (uint32_t)(at - 1004), &len, &rid)) == VAH_NOT_FOUND) {
		rc = vah_name_key(VAH_NAME_GUARD, "notes", 5, NULL, 0, n->key, &len);
		if (n->value[0]++ > 1) return 0; /* that was the last one */
	}
	*entry = (vah_ref){ n->key, len, rid };
	return rc ? -1 : 1;
}

/* Names and a long value are there, as if they had been made in a transaction, and go on. */
static void named(void)
{
	static struct names n;
	static uint8_t found[9000];
	uint8_t key[VAH_KEY_MAX];
	size_t len, size;
	uint64_t rid;
	vah_store *store;
	vah_txn *txn;
	memset(&n, 1, sizeof n);
	n.at = 0;
	OK(vah_load(in_folder("named"), next_of_names, &n));
	OK(vah_open(in_folder("named"), NULL, &store));
	OK(vah_begin(store, &txn));
	OK(named_make(txn, "city", NAMED_INDEX));
	OK(named_make(txn, "notes", NAMED_LONG));
	OK(named_key("city", "c00999", 6, key, &len));
	OK(vah_fetch(txn, key, len, &rid));
	HOLDS(rid == 1002);
	OK(named_key("city", "c01000", 6, key, &len));
	IS(vah_fetch(txn, key, len, &rid), VAH_NOT_FOUND);
	OK(vah_insert(txn, key, len, 1));
	n.value[0] = 1;
	OK(long_get(txn, "notes", "a", 1, found, sizeof found, &size));
	HOLDS(size == sizeof found && !memcmp(found, n.value, size));
	OK(long_put(txn, "notes", "b", 1, found, size));
	OK(vah_commit(txn));
	OK(vah_close(store));
	remove_folder(in_folder("named"));
}

/* A store of keys that came in no order, loaded into another folder: it has the same entries in fewer pages, and the store is as it was. */
static void compact(int count, int len)
{
	char to[4096];
	struct stat old, new;
	uint8_t key[255];
	vah_store *store;
	vah_txn *txn;
	OK(vah_open(in_folder("store"), NULL, &store));
	OK(vah_begin(store, &txn));
	for (int i = 0; i < count; i++) {
		int at = (int)((unsigned)i * 7919u % (unsigned)count);
		set_key(key, len, at);
		OK(vah_insert(txn, key, (size_t)len, 7 + (uint64_t)at));
	}
	OK(vah_commit(txn));
	snprintf(to, sizeof to, "%s", in_folder("compact"));
	IS(vah_compact(in_folder("store"), to), VAH_LOCKED);
	HOLDS(strstr(vah_last_error(), "store"));
	OK(vah_close(store));
	OK(vah_compact(in_folder("store"), to));
	snprintf(to, sizeof to, "%.4000s/pages", in_folder("store"));
	HOLDS(!stat(to, &old));
	snprintf(to, sizeof to, "%.4000s/pages", in_folder("compact"));
	HOLDS(!stat(to, &new) && (count < 1000 || new.st_size * 10 < old.st_size * 9));
	snprintf(to, sizeof to, "%s", in_folder("compact"));
	IS(vah_compact(in_folder("store"), to), VAH_NOT_EMPTY);
	HOLDS(strstr(vah_last_error(), "it is not empty"));
	has("compact", count, len);
	has("store", count, len);
	remove_folder(to);
	remove_folder(in_folder("store"));
}

/* A store that is not there, and one of whose pages a byte was changed: they are refused, and no folder has files after that. */
static void compact_damaged(void)
{
	char at[4200], to[4096];
	snprintf(to, sizeof to, "%s", in_folder("compact"));
	IS(vah_compact(in_folder("store"), to), VAH_DEVICE);
	HOLDS(names_in(to) == -1 && names_in(in_folder("store")) == -1);
	OK(load("store", 20000, 12, 0, NONE));
	snprintf(at, sizeof at, "%.4000s/pages", in_folder("store"));
	FILE *file = fopen(at, "r+");
	HOLDS(file && !fseek(file, 4096 * 20 + 2000, SEEK_SET) && fputc('~', file) != EOF && !fclose(file));
	IS(vah_compact(in_folder("store"), to), VAH_NOT_A_STORE);
	HOLDS(strstr(vah_last_error(), "/store: the files hold no store"));
	HOLDS(names_in(to) == 0);
	remove_folder(to);
	remove_folder(in_folder("store"));
	IS(vah_compact(NULL, to), VAH_INVALID);
	IS(vah_compact(to, NULL), VAH_INVALID);
}

/* A load that is refused leaves an empty folder. */
static void refused(int odd, enum oddity what, int code)
{
	IS(load("refused", 1000, 12, odd, what), code);
	HOLDS(names_in(in_folder("refused")) == 0);
	remove_folder(in_folder("refused"));
}

/* A folder into which a load was not finished: it is empty, or none, or refused, or the store is whole. */
static void is_none_or_whole(const char *name, int count, int len)
{
	char at[4200];
	vah_store *store = NULL;
	snprintf(at, sizeof at, "%.4000s/log.part", in_folder(name));
	if (names_in(in_folder(name)) > 0) {
		if (access(at, F_OK)) {
			has(name, count, len);
		} else {
			IS(vah_open(in_folder(name), NULL, &store), VAH_NOT_A_STORE);
			HOLDS(!store && strstr(vah_last_error(), "a copy or a load into it was not finished"));
		}
	}
	remove_folder(in_folder(name));
}

static void set_number(const char *name, int n)
{
	char number[32];
	snprintf(number, sizeof number, "%d", n);
	setenv(name, number, 1);
}

/* Each call on the files fails in turn, and each after it. */
static void each_call(void)
{
	int rc = 1;
	for (int n = 1; rc; n += step) {
		set_number("VAH_COPY_FAIL_AT", n);
		rc = load("fails", 700, 200, 0, NONE);
		unsetenv("VAH_COPY_FAIL_AT");
		HOLDS(!rc || (rc == VAH_DEVICE && errno == EIO));
		is_none_or_whole("fails", 700, 200);
	}
}

/* The process is killed within each call in turn. */
static void each_kill(void)
{
	int status = 1;
	for (int n = 1; status; n += step) {
		pid_t child = fork();
		if (!child) {
			set_number("VAH_COPY_KILL_AT", n);
			_exit(load("killed", 700, 200, 0, NONE));
		}
		HOLDS(child > 0 && waitpid(child, &status, 0) == child);
		HOLDS(!status || (WIFSIGNALED(status) && WTERMSIG(status) == SIGKILL));
		is_none_or_whole("killed", 700, 200);
	}
}

int main(int argc, char **argv)
{
	if (argc < 2) return 2;
	snprintf(folder, sizeof folder, "%s", argv[1]);
	if (argc > 2) step = atoi(argv[2]);
	loaded(0, 4);
	loaded(1, 255);
	loaded(255, 5);
	loaded(256, 5);
	loaded(20000, 12);
	loaded(3000, 255);
	refused(0, EMPTY, VAH_KEY_LENGTH);
	refused(999, LONG, VAH_KEY_LENGTH);
	refused(500, FALLS, VAH_NOT_RISING);
	refused(256, EQUAL, VAH_NOT_RISING);
	refused(700, GIVES_UP, VAH_STOPPED);
	refused(3, IS_NULL, VAH_INVALID);
	IS(vah_load(NULL, next, NULL), VAH_INVALID);
	IS(vah_load(in_folder("none"), NULL, NULL), VAH_INVALID);
	named();
	compact(0, 4);
	compact(1, 255);
	compact(257, 5);
	compact(5003, 12);
	compact_damaged();
	each_call();
	each_kill();
	return 0;
}
