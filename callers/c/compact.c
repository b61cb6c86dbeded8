/* The entries of a store that is not open, loaded into another folder, where they take as few pages as they can. */
#include "internal.h"
#include <errno.h>
#include <stdio.h>
#include <string.h>

/* A walk over a store that nobody changes: each part is read in a transaction of its own, in which its keys lie until it has ended. */
struct walk {
	vah_store *store;
	vah_txn *txn;
	uint8_t last[VAH_KEY_MAX]; /* the last key so far; the least one before the first part */
	size_t len;
	int is_begun;
	int code;
	char why[300]; /* what was told of a refusal, which the load tells in words of its own */
};

/* Reads the next part, whose first entry is the last one of the part before. */
static int read_part(struct walk *w, vah_ref *entries, size_t *count)
{
	uint8_t hi[VAH_KEY_MAX];
	vah_txn *txn = w->txn;
	memset(hi, 255, sizeof hi);
	w->txn = NULL;
	int code = txn ? vah_commit(txn) : VAH_OK;
	if (code || (code = vah_begin(w->store, &txn)))
		return code;
	w->txn = txn;
	return vah_scan_refs(txn, w->last, w->len, hi, sizeof hi, entries, VAH_SCAN_MAX, count);
}

static int next_part(void *with, vah_ref *entries)
{
	struct walk *w = with;
	size_t count = 0;
	if ((w->code = read_part(w, entries, &count))) {
		snprintf(w->why, sizeof w->why, "%s", vah_last_error());
		return -1;
	}
	if (count) {
		w->len = entries[count - 1].len;
		memcpy(w->last, entries[count - 1].key, w->len);
	}
	if (w->is_begun && count)
		memmove(entries, entries + 1, --count * sizeof *entries);
	w->is_begun = 1;
	return (int)count;
}

int vah_compact(const char *path, const char *folder)
{
	vah_config config = VAH_CONFIG_INIT;
	struct walk w = { .len = 1 };
	size_t size;
	char *text = error_text(&size);
	config.read_only = 1;
	int code = folder ? vah_open(path, &config, &w.store) : fail(NULL, VAH_INVALID);
	if (code)
		return code;
	code = vah_load(folder, next_part, &w);
	if (w.code) {
		code = w.code;
		snprintf(text, size, "%s", w.why);
	}
	int why = errno;
	char told[sizeof w.why];
	snprintf(told, sizeof told, "%s", text);
	if (w.txn)
		vah_rollback(w.txn);
	vah_close(w.store);
	if (code)
		snprintf(text, size, "%s", told);
	errno = why;
	return code;
}
