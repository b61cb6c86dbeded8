/* The lines of imstore, as far as examples/programs/imstore_guards_files and examples/programs/failing_calls write them, over this library: so one list
 * guards both, and the calls of both fail in turn. lines FOLDER, or lines --check FOLDER. */
#include "test.h"
#include <inttypes.h>

static const char *name;

static int refused(int code)
{
	printf("open refused %d\n", code);
	fflush(stdout);
	fprintf(stderr, "imstore: %s\n", vah_last_error());
	return 1;
}

/* Prints what a line is answered: this word, or that it is refused. */
static void answer(int code, const char *done)
{
	if (code)
		printf("refused %d\n", code);
	else
		printf("%s\n", done);
}

/* A key: words joined by +, each of which may be repeated, as z*248. */
static size_t key_of(char *word, char *key)
{
	size_t len = 0;
	for (char *part = strtok(word, "+"); part; part = strtok(NULL, "+")) {
		char *times = strchr(part, '*');
		long n = times ? strtol(times + 1, NULL, 10) : 1;
		size_t size = times ? (size_t)(times - part) : strlen(part);
		for (; n > 0 && len + size <= VAH_KEY_MAX; n--, len += size)
			memcpy(key + len, part, size);
	}
	return len;
}

static void print_entries(vah_store *store)
{
	static vah_entry entries[VAH_SCAN_MAX];
	unsigned char hi[VAH_KEY_MAX];
	vah_txn *txn;
	size_t n;
	memset(hi, 0xff, sizeof hi);
	OK(vah_begin(store, &txn));
	OK(vah_scan(txn, "\0", 1, hi, sizeof hi, entries, VAH_SCAN_MAX, &n));
	OK(vah_commit(txn));
	printf("total %zu\n", n);
	for (size_t i = 0; i < n; i++) {
		for (int j = 0; j < entries[i].len; j++) printf("%02x", entries[i].key[j]);
		printf(" %" PRIu64 "\n", entries[i].rid);
	}
}

int main(int argc, char **argv)
{
	vah_store *store;
	vah_txn *txns[65] = { 0 };
	unsigned begun = 0, t;
	char line[512], word[400], key[VAH_KEY_MAX];
	uint64_t row;
	int is_check = argc > 2 && !strcmp(argv[1], "--check");
	if (argc < 2) return 1;
	name = argv[argc - 1];
	int code = vah_open(name, NULL, &store);
	if (code) return refused(code);
	if (is_check) printf("ok\n");
	while (!is_check && fgets(line, sizeof line, stdin)) {
		if (!strcmp(line, "begin\n")) {
			code = vah_begin(store, &txns[begun + 1]);
			begun += !code;
			snprintf(word, sizeof word, "started %u", begun);
			answer(code, word);
		} else if (!strcmp(line, "entries\n")) {
			print_entries(store);
		} else if (sscanf(line, "insert %u %399s %" SCNu64, &t, word, &row) == 3) {
			answer(vah_insert(txns[t], key, key_of(word, key), row), "inserted");
		} else if (sscanf(line, "commit %u", &t) == 1) {
			answer(vah_commit(txns[t]), "committed");
			txns[t] = NULL;
		} else if (!strcmp(line, "switch\n")) {
			answer(vah_switch(store), "done");
		} else if (!strcmp(line, "checkpoint\n")) {
			answer(vah_checkpoint(store), "done");
		} else if (!strncmp(line, "flush ", 6)) {
			answer(vah_flush(store), "done");
		}
		fflush(stdout);
	}
	for (t = 1; t <= begun; t++) vah_rollback(txns[t]);
	code = vah_close(store);
	if (code)
		printf("close refused %d\n", code);
	return code != 0;
}
