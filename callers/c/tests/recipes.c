/* The recipes of docs/GUIDE.md: prefixes, counts, several indexes in one store, keys that are not unique, indexes with names, and long values. */
#include "test.h"
#include "named.h"
#include "internal.h"

/* The upper bound of all keys that begin with a prefix: no key is longer than 255 bytes. */
static void end_of_prefix(const char *prefix, size_t len, unsigned char *hi)
{
	memcpy(hi, prefix, len);
	memset(hi + len, 0xff, VAH_KEY_MAX - len);
}

/* How many keys lie from one to another: 256 entries at a time, each time from the last one on, which is not counted again. */
static size_t count_of(vah_txn *txn, const void *lo, size_t lo_len, const void *hi, size_t hi_len)
{
	static vah_entry entries[VAH_SCAN_MAX];
	unsigned char last[VAH_KEY_MAX];
	size_t n, all = 0;
	do {
		OK(vah_scan(txn, lo, lo_len, hi, hi_len, entries, VAH_SCAN_MAX, &n));
		int again = all > 0 && n > 0 && entries[0].len == lo_len && !memcmp(entries[0].key, lo, lo_len);
		all += n - (size_t)again;
		if (n) {
			memcpy(last, entries[n - 1].key, entries[n - 1].len);
			lo = last;
			lo_len = entries[n - 1].len;
		}
	} while (n == VAH_SCAN_MAX);
	return all;
}

/* A key that is not unique: the value, and at the end the row id in 8 bytes, the highest first. */
static size_t with_row(const char *value, uint64_t row, unsigned char *key)
{
	size_t len = strlen(value);
	memcpy(key, value, len);
	key[len] = 0;
	for (int i = 0; i < 8; i++)
		key[len + 1 + (size_t)i] = (unsigned char)(row >> (56 - 8 * i));
	return len + 9;
}

/* A key of an index with a name. */
static void put_in(vah_txn *txn, const char *name, const char *word, uint64_t rid)
{
	uint8_t key[VAH_KEY_MAX];
	size_t len;
	OK(named_key(name, word, strlen(word), key, &len));
	OK(vah_put(txn, key, len, rid, NULL, NULL));
}

/* Two indexes with names, of which one is all before the other, and each of which ends with an entry of its own. */
static void with_names(vah_txn *txn)
{
	uint8_t key[VAH_KEY_MAX], hi[VAH_KEY_MAX];
	vah_ref found[8];
	size_t len, count;
	OK(named_make(txn, "by_city", NAMED_INDEX));
	OK(named_make(txn, "by_name", NAMED_INDEX));
	OK(named_make(txn, "by_city", NAMED_INDEX)); /* it is there */
	IS(named_make(txn, "by_city", NAMED_LONG), VAH_EXISTS);
	IS(named_make(txn, "", NAMED_INDEX), VAH_KEY_LENGTH);
	IS(named_make(txn, "a name that has more than 31 bytes", NAMED_INDEX), VAH_KEY_LENGTH);
	put_in(txn, "by_city", "oslo", 1);
	put_in(txn, "by_city", "rome", 2);
	put_in(txn, "by_name", "anna", 3);
	OK(named_key("by_city", NULL, 0, key, &len));
	memcpy(hi, key, len);
	named_end(hi, len);
	OK(vah_scan_refs(txn, key, len, hi, sizeof hi - 1, found, 8, &count)); /* up to its end, and without it */
	HOLDS(count == 2 && found[0].rid == 1 && found[1].rid == 2 && found[1].len == len + 4 && !memcmp(found[1].key + len, "rome", 4));
}

enum { LONG_SIZE = 100000 };

/* A long value is what was put last, whole, whatever its key and its length, and beside others. */
static void is_value(vah_txn *txn, const char *key, size_t len, const uint8_t *value, size_t size)
{
	static uint8_t found[LONG_SIZE];
	size_t is = 0;
	memset(found, 0, sizeof found);
	OK(long_get(txn, "notes", key, len, found, sizeof found, &is));
	HOLDS(is == size && !memcmp(found, value, size));
	OK(long_get(txn, "notes", key, len, NULL, 0, &is));
	HOLDS(is == size);
}

static void long_values(vah_txn *txn)
{
	static uint8_t value[LONG_SIZE];
	size_t sizes[] = { 0, 1, 100, 239, 240, 241, 4096, 70000, LONG_SIZE, 3, 0 }, is;
	for (size_t i = 0; i < sizeof value; i++) value[i] = (uint8_t)(i * 2654435761u >> 13);
	OK(named_make(txn, "notes", NAMED_LONG));
	OK(long_put(txn, "notes", "a\0", 2, "zero", 4));
	OK(long_put(txn, "notes", "a\0b", 3, value, 5000));
	OK(long_put(txn, "notes", "b", 1, "other", 5));
	for (size_t i = 0; i < sizeof sizes / sizeof *sizes; i++) { /* each in the place of the one before, longer and shorter */
		OK(long_put(txn, "notes", "a", 1, value + i, sizes[i] - (sizes[i] == LONG_SIZE ? i : 0)));
		is_value(txn, "a", 1, value + i, sizes[i] - (sizes[i] == LONG_SIZE ? i : 0));
		is_value(txn, "a\0", 2, (const uint8_t *)"zero", 4);
		is_value(txn, "a\0b", 3, value, 5000);
		is_value(txn, "b", 1, (const uint8_t *)"other", 5);
	}
	OK(long_delete(txn, "notes", "a", 1));
	IS(long_delete(txn, "notes", "a", 1), VAH_NOT_FOUND);
	IS(long_get(txn, "notes", "a", 1, value, 1, &is), VAH_NOT_FOUND);
	is_value(txn, "a\0", 2, (const uint8_t *)"zero", 4);
	IS(long_put(txn, "notes", value, 255, "long", 4), VAH_KEY_LENGTH);
	IS(long_put(txn, "notes", "", 0, "none", 4), VAH_KEY_LENGTH);
}

#ifdef VAH_TEST
/* A value whose put finds no memory for a part: it is taken back, the one before is there, and what else was done is committed. */
static void half_a_value(vah_store *store, unsigned long refused)
{
	static uint8_t value[3000];
	vah_txn *txn;
	OK(vah_begin(store, &txn));
	OK(named_make(txn, "notes", NAMED_LONG));
	OK(long_put(txn, "notes", "k", 1, value, 700));
	OK(vah_commit(txn));
	OK(vah_begin(store, &txn));
	vah_test_refused_insert = refused;
	IS(long_put(txn, "notes", "k", 1, value, sizeof value), VAH_MEMORY);
	is_value(txn, "k", 1, value, 700);
	OK(long_put(txn, "notes", "beside", 6, value, 900));
	OK(vah_commit(txn));
	OK(vah_begin(store, &txn));
	is_value(txn, "k", 1, value, 700);
	is_value(txn, "beside", 6, value, 900);
	OK(vah_commit(txn));
}

/* A name that finds no memory for its first, second or third entry: it is none, and may be given to what it was not asked for. */
static void half_a_name(vah_store *store)
{
	static const uint8_t row[] = { 0, 'h', 'a', 'l', 'f' };
	for (unsigned long refused = 1; refused < 5; refused++) {
		vah_txn *txn;
		uint64_t kind = 0;
		OK(vah_begin(store, &txn));
		if (refused == 1) { /* the entry above the catalogue is put in with its first name */
			uint8_t catalogue[VAH_KEY_MAX] = { 0 };
			named_end(catalogue, 1);
			OK(vah_delete(txn, catalogue, sizeof catalogue));
		}
		vah_test_refused_insert = refused;
		IS(named_make(txn, "half", NAMED_INDEX), refused < 4 ? VAH_MEMORY : VAH_OK);
		IS(vah_fetch(txn, row, sizeof row, &kind), refused < 4 ? VAH_NOT_FOUND : VAH_OK);
		OK(vah_commit(txn));
	}
	vah_test_refused_insert = 0;
}
#endif

/* Parts that are no value: one is missing, the last one too, one has another number, or says that more or less is left. */
static void not_whole(vah_txn *txn)
{
	static uint8_t value[1000], found[1000];
	uint8_t lo[VAH_KEY_MAX + 8], part[VAH_KEY_MAX];
	vah_ref refs[VAH_SCAN_MAX];
	vah_entry parts[8];
	size_t len, count, size = 0;
	OK(long_put(txn, "notes", "w", 1, value, sizeof value));
	OK(long_prefix("notes", "w", 1, lo, &len));
	OK(long_parts(txn, lo, len, 0, refs, &count));
	HOLDS(count > 3 && count < 8);
	for (size_t i = 0; i < count; i++) {
		parts[i].len = (uint8_t)refs[i].len;
		parts[i].rid = refs[i].rid;
		memcpy(parts[i].key, refs[i].key, refs[i].len);
	}
	for (size_t i = 0; i < count; i++) {
		OK(vah_delete(txn, parts[i].key, parts[i].len));
		IS(long_get(txn, "notes", "w", 1, found, sizeof found, &size), LONG_NOT_WHOLE);
		memcpy(part, parts[i].key, parts[i].len);
		part[len] = 1; /* as a later part */
		OK(vah_insert(txn, part, parts[i].len, parts[i].rid));
		IS(long_get(txn, "notes", "w", 1, found, sizeof found, &size), LONG_NOT_WHOLE);
		OK(vah_delete(txn, part, parts[i].len));
		OK(vah_insert(txn, part, len + 1, parts[i].rid)); /* too short for a number */
		IS(long_get(txn, "notes", "w", 1, found, sizeof found, &size), LONG_NOT_WHOLE);
		OK(vah_delete(txn, part, len + 1));
		for (uint64_t off = 0; off < 3; off++) {
			OK(vah_put(txn, parts[i].key, parts[i].len, parts[i].rid + 1 - off, NULL, NULL));
			IS(long_get(txn, "notes", "w", 1, found, sizeof found, &size), off == 1 ? VAH_OK : LONG_NOT_WHOLE);
		}
		OK(vah_put(txn, parts[i].key, parts[i].len, parts[i].rid, NULL, NULL));
	}
	is_value(txn, "w", 1, value, sizeof value);
	OK(long_delete(txn, "notes", "w", 1));
}

/* What a program in Rust or Python makes of the same names, keys and values: each entry's key and row id in an FNV-1a hash. */
static void same_entries(const char *dir)
{
	static uint8_t value[LONG_SIZE];
	vah_store *store;
	vah_txn *txn;
	vah_entry at;
	uint64_t hash = UINT64_C(0xcbf29ce484222325), count = 0;
	for (size_t i = 0; i < sizeof value; i++) value[i] = (uint8_t)(i * 7 + i / 256);
	OK(vah_open(dir, NULL, &store));
	OK(vah_begin(store, &txn));
	OK(named_make(txn, "by_city", NAMED_INDEX));
	OK(named_make(txn, "notes", NAMED_LONG));
	put_in(txn, "by_city", "oslo", 7);
	put_in(txn, "by_city", "rome", 8);
	OK(long_put(txn, "notes", "a", 1, value, 0));
	OK(long_put(txn, "notes", "a\0", 2, value, 300));
	OK(long_put(txn, "notes", "a\0b", 3, value, 100000));
	OK(long_put(txn, "notes", "b", 1, value, 240));
	for (int rc = vah_seek(txn, "\0", 1, &at); !rc; rc = vah_next(txn, at.key, at.len, &at), count++) {
		for (int i = 0; i < at.len; i++) hash = (hash ^ at.key[i]) * UINT64_C(0x100000001b3);
		for (int i = 0; i < 8; i++) hash = (hash ^ (at.rid >> 8 * i & 255)) * UINT64_C(0x100000001b3);
	}
	HOLDS(count == 428 && hash == UINT64_C(0xa2283477b8010e86));
	OK(vah_commit(txn));
	OK(vah_close(store));
}

int main(int argc, char **argv)
{
	vah_store *store;
	vah_txn *txn;
	vah_entry found[8];
	unsigned char key[VAH_KEY_MAX], hi[VAH_KEY_MAX];
	char dir[4096];
	size_t n;
	if (argc < 2) return 1;
	snprintf(dir, sizeof dir, "%.4000s/same", argv[1]);
	same_entries(dir);
	snprintf(dir, sizeof dir, "%.4000s/recipes", argv[1]);
	OK(vah_open(dir, NULL, &store));
	OK(vah_begin(store, &txn));

	/* a prefix */
	for (int i = 0; i < 700; i++) {
		char name[16];
		int len = snprintf(name, sizeof name, "user%d", i);
		OK(vah_insert(txn, name, (size_t)len, (uint64_t)i));
	}
	end_of_prefix("user12", 6, hi);
	OK(vah_scan(txn, "user12", 6, hi, sizeof hi, found, 3, &n));
	for (size_t i = 0; i < n; i++) printf("%.*s ", found[i].len, (const char *)found[i].key);

	/* the count of a range */
	printf("- %zu ", count_of(txn, "user12", 6, hi, sizeof hi));
	end_of_prefix("user", 4, hi);
	printf("%zu -", count_of(txn, "user", 4, hi, sizeof hi));

	/* two indexes in one store, each by a first byte; and keys that are not unique, by the row at their end */
	const char *cities[] = { "oslo", "rome", "oslo", "oslo" };
	for (uint64_t row = 0; row < 4; row++) {
		char id[2] = { 1, (char)('a' + row) }, city[32];
		OK(vah_insert(txn, id, 2, row));
		snprintf(city, sizeof city, "\2%s", cities[row]);
		OK(vah_insert(txn, key, with_row(city, row, key), row));
	}
	size_t lo_len = with_row("\2oslo", 0, key), hi_len = with_row("\2oslo", UINT64_MAX, hi);
	OK(vah_scan(txn, key, lo_len, hi, hi_len, found, 8, &n));
	for (size_t i = 0; i < n; i++) printf(" %llu", (unsigned long long)found[i].rid);
	end_of_prefix("\1", 1, hi);
	printf(" - %zu\n", count_of(txn, "\1", 1, hi, sizeof hi));
	with_names(txn);
	long_values(txn);
	not_whole(txn);
	OK(vah_commit(txn));
#ifdef VAH_TEST
	half_a_name(store);
	half_a_value(store, 1);
	half_a_value(store, 3);
#endif
	OK(vah_close(store));
	return 0;
}
