/* Files that a stop leaves, which no guard refuses: page 0 whose write was cut so that its LSN is old and its count new; a log that was being made, whose bytes
 * are any. And a file of pages that was cut, or is older than its logs, is refused; and a close cuts the logs. What imstore guards too is in
 * examples/programs/imstore_guards_files. guards FOLDER */
#define _GNU_SOURCE
#include "test.h"
#include <fcntl.h>
#include <sys/stat.h>
#include <sys/wait.h>
#include <unistd.h>

enum { PAGE = 4096, COUNT_AT = 24, GATE_AT = 47, KIND_AT = 56 };
static char dir[4096];

static int open_file(const char *name)
{
	char at[4200];
	snprintf(at, sizeof at, "%.4000s/%s", dir, name);
	int fd = open(at, O_RDWR);
	HOLDS(fd >= 0);
	return fd;
}

static void write_at(const char *name, off_t at, const void *bytes, size_t len)
{
	int fd = open_file(name);
	HOLDS(pwrite(fd, bytes, len, at) == (ssize_t)len);
	close(fd);
}

static long long length_of(const char *name)
{
	struct stat of_file;
	int fd = open_file(name);
	HOLDS(!fstat(fd, &of_file));
	close(fd);
	return of_file.st_size;
}

static long long pages_in_file(void) { return length_of("pages") / PAGE; }

static void put_keys(vah_store *store, int from, int to)
{
	vah_txn *txn;
	uint8_t key[VAH_KEY_MAX];
	memset(key, 'z', sizeof key);
	OK(vah_begin(store, &txn));
	for (int i = from; i < to; i++) {
		memcpy(key, (uint8_t[2]){ (uint8_t)(i * 37), (uint8_t)i }, 2);
		OK(vah_insert(txn, key, sizeof key, (uint64_t)i));
	}
	OK(vah_commit(txn));
}

static void has_keys(int wanted)
{
	vah_store *store;
	vah_txn *txn;
	vah_entry entry = { .len = 1 };
	int count = 0;
	OK(vah_open(dir, NULL, &store));
	OK(vah_begin(store, &txn));
	while (!vah_next(txn, entry.key, entry.len, &entry)) count++;
	OK(vah_commit(txn));
	OK(vah_close(store));
	HOLDS(count == wanted);
}

/* A program that puts the keys from one on up to another, switches, and is killed with more in the log alone. */
static void leave_more(int first, int written, int logged)
{
	int status;
	pid_t child = fork();
	if (!child) {
		vah_store *store;
		OK(vah_open(dir, NULL, &store));
		put_keys(store, first, written);
		OK(vah_switch(store));
		if (logged)
			put_keys(store, written, written + logged);
		_exit(0);
	}
	HOLDS(child > 0 && waitpid(child, &status, 0) == child && WIFEXITED(status) && WEXITSTATUS(status) == 0);
}

static void leave_store(int written, int logged)
{
	leave_more(0, written, logged);
}

static void copy_file(const char *from, const char *to)
{
	char at[4200];
	uint8_t page[PAGE];
	snprintf(at, sizeof at, "%.4000s/%s", dir, to);
	int in = open_file(from), out = open(at, O_WRONLY | O_CREAT | O_TRUNC, 0600);
	HOLDS(out >= 0);
	for (ssize_t len; (len = read(in, page, sizeof page)) > 0; )
		HOLDS(write(out, page, (size_t)len) == len);
	close(in);
	close(out);
}

/* The write of page 0 was cut: its count is the new one, and all else as it was at the switch. The log has the whole page. */
static void torn_count(void)
{
	leave_store(60, 100);
	long long pages = pages_in_file();
	HOLDS(pages > 4 && pages < 12);
	write_at("pages", COUNT_AT, (uint8_t[4]){ 0, 0, 0, 19 }, 4);
	has_keys(160);
}

/* Pages that the store had at the switch are missing, and the log says nothing of them. */
static void cut_pages(void)
{
	vah_store *store = NULL;
	leave_store(60, 0);
	int fd = open_file("pages");
	HOLDS(!ftruncate(fd, 3 * PAGE));
	close(fd);
	IS(vah_open(dir, NULL, &store), VAH_NOT_A_STORE);
	HOLDS(!store && strstr(vah_last_error(), "lacks pages"));
}

/* Pages from before the log that the last switch left, with or without a record since. */
static void older_pages(int logged)
{
	vah_store *store = NULL;
	leave_store(60, 0);
	copy_file("pages", "older");
	leave_more(60, 200, logged);
	copy_file("pages", "newer");
	copy_file("older", "pages");
	IS(vah_open(dir, NULL, &store), VAH_NOT_A_STORE);
	HOLDS(!store && strstr(vah_last_error(), "older than its logs"));
	copy_file("newer", "pages");
	has_keys(200 + logged);
}

/* The place after the first batch of a log. */
static long long first_batch_end(const char *name)
{
	uint8_t size[4];
	int fd = open_file(name);
	HOLDS(pread(fd, size, sizeof size, GATE_AT + 1) == sizeof size);
	close(fd);
	return GATE_AT + 5 + ((long long)size[0] << 24 | size[1] << 16 | size[2] << 8 | size[3]);
}

/* A close cuts the log that was left to its first batch, and cuts it no further; and the current one to its gate, where it has no record. A program that was stopped leaves them whole,
 * and so does one that only reads. */
static void left_log(void)
{
	vah_config reads = VAH_CONFIG_INIT;
	vah_store *store;
	reads.read_only = 1;
	/* (of more keys a close would leave the current log, too) */
	leave_store(10, 3);
	long long whole = length_of("log"), kept = first_batch_end("log");
	HOLDS(kept + 1 < whole);
	OK(vah_open(dir, &reads, &store));
	OK(vah_close(store));
	HOLDS(length_of("log") == whole);
	has_keys(13);
	HOLDS(length_of("log") == kept && length_of("log2") > first_batch_end("log2"));
	has_keys(13);
	HOLDS(length_of("log") == kept);
	OK(vah_open(dir, NULL, &store));
	OK(vah_switch(store));
	OK(vah_close(store));
	HOLDS(length_of("log2") == first_batch_end("log2") && length_of("log") == GATE_AT + 1);
	has_keys(13);
}

/* A store without keys, whose other log was being made when it was stopped: where a record of a log before stood there are any bytes. */
static void unmade_log(void)
{
	vah_store *store;
	OK(vah_open(dir, NULL, &store));
	OK(vah_switch(store)); /* to log2 */
	OK(vah_switch(store)); /* and back */
	OK(vah_close(store));
	HOLDS(pages_in_file() == 0);
	write_at("log2", 0, "\0", 1);
	write_at("log2", GATE_AT, "\1", 1);
	write_at("log2", KIND_AT, "\1", 1);
	has_keys(0);
}

int main(int argc, char **argv)
{
	if (argc < 2) return 1;
	snprintf(dir, sizeof dir, "%.4000s/torn", argv[1]);
	torn_count();
	snprintf(dir, sizeof dir, "%.4000s/cut", argv[1]);
	cut_pages();
	snprintf(dir, sizeof dir, "%.4000s/older", argv[1]);
	older_pages(0);
	snprintf(dir, sizeof dir, "%.4000s/older_logged", argv[1]);
	older_pages(3);
	snprintf(dir, sizeof dir, "%.4000s/left", argv[1]);
	left_log();
	snprintf(dir, sizeof dir, "%.4000s/unmade", argv[1]);
	unmade_log();
	return 0;
}
