/* Several indexes, each with a name, and values of any length in one store, as the packages for Rust and Python keep them (docs/GUIDE.md). Copy this
 * file into a program: it stands on vahondrisa.h alone. Each function works within the caller's transaction, and returns what the call of the store
 * did that was refused: after VAH_GIVE_WAY call vah_again and make all again. A long value that is refused half way is taken back, so that no half of it is
 * ever committed. LONG_NOT_WHOLE is this file's own: the parts of a value are not numbered 0, 1, 2 and on, or do not say how many bytes are left. */
#ifndef VAH_NAMED_H
#define VAH_NAMED_H
#include <string.h>
#include "vahondrisa.h"

enum { NAMED_INDEX = 1, NAMED_LONG = 2, LONG_NOT_WHOLE = 1000 };

/* Puts a name and a key together; with no key, what all keys of the name begin with. VAH_KEY_LENGTH where they do not fit. */
static inline int named_key(const char *name, const void *key, size_t len, uint8_t *to, size_t *to_len)
{
	return *name ? vah_name_key(len ? VAH_NAME_ENTRY : VAH_NAME_FIRST, name, strlen(name), key, len, to, to_len) : VAH_KEY_LENGTH;
}

/* What lies above all keys that begin so: the same, filled with FF to 255 bytes. */
static inline void named_end(uint8_t *key, size_t len) { memset(key + len, 0xff, VAH_KEY_MAX - len); }

/* Puts an entry above all keys of a name, or above the catalogue, where it is not there. */
static inline int named_guard(vah_txn *txn, const char *name)
{
	uint8_t key[VAH_KEY_MAX];
	size_t len;
	int rc = vah_name_key(VAH_NAME_GUARD, name, strlen(name), NULL, 0, key, &len);
	if (!rc)
		rc = vah_insert(txn, key, len, 0);
	return rc == VAH_EXISTS ? VAH_OK : rc;
}

/* Makes an index, or what holds long values: a row of the catalogue, and an entry above all of its keys, on which the locks at its end fall, and not on
 * the first key of its neighbour. One that is there is left as it is; VAH_EXISTS where it is of the other kind. The row comes last, so that a name that
 * was refused half way is none. */
static inline int named_make(vah_txn *txn, const char *name, uint64_t kind)
{
	uint8_t row[VAH_KEY_MAX];
	size_t len;
	uint64_t found;
	int rc = vah_name_key(VAH_NAME_ROW, name, strlen(name), NULL, 0, row, &len);
	if (rc)
		return rc;
	if ((rc = vah_fetch(txn, row, len, &found)) != VAH_NOT_FOUND)
		return rc ? rc : found == kind ? VAH_OK : VAH_EXISTS;
	if ((rc = named_guard(txn, name)) || (rc = named_guard(txn, "")))
		return rc;
	return vah_insert(txn, row, len, kind);
}

/* ---- long values: parts, each of them a key ---- */

/* What all parts of a value begin with. */
static inline int long_prefix(const char *name, const void *key, size_t len, uint8_t *to, size_t *to_len)
{
	return vah_name_key(VAH_NAME_PARTS, name, strlen(name), key, len, to, to_len);
}

/* The parts of a value whose prefix are the first `len` bytes of `lo`: all of them, or from the key on of which so many bytes stand there. */
static inline int long_parts(vah_txn *txn, const uint8_t *lo, size_t len, size_t from, vah_ref *refs, size_t *count)
{
	uint8_t key[VAH_KEY_MAX], hi[VAH_KEY_MAX];
	size_t key_len, front, hi_len;
	int rc = vah_long_key(lo, len, key, &key_len, &front);
	if (!rc) /* the name stands in front of the key, after its length */
		rc = vah_name_key(VAH_NAME_PARTS_END, lo + 1, lo[0], key, key_len, hi, &hi_len);
	return rc ? rc : vah_scan_refs(txn, lo, from ? from : len, hi, hi_len, refs, VAH_SCAN_MAX, count);
}

/* Reads a value: as much as there is room for goes into `value`, and `size` is how long it is. The parts that are read are asked to be those of one
 * value, all of them where there is room for it. */
static inline int long_get(vah_txn *txn, const char *name, const void *key, size_t key_len, void *value, size_t room, size_t *size)
{
	uint8_t lo[VAH_KEY_MAX];
	vah_ref refs[VAH_SCAN_MAX];
	vah_reading reading = { 0, 0, 0 };
	size_t len, count, at = 0, from = 0;
	int rc = long_prefix(name, key, key_len, lo, &len);
	do {
		if (rc || (rc = long_parts(txn, lo, len, from, refs, &count)))
			return rc;
		for (size_t i = from ? 1 : 0; i < count; i++) { /* the last part that was read comes again */
			if (vah_long_read(&reading, len, refs[i].key, refs[i].len, refs[i].rid))
				return LONG_NOT_WHOLE;
			size_t part = refs[i].len - len - 3, fits = at < room ? room - at : 0;
			if (fits)
				memcpy((uint8_t *)value + at, refs[i].key + len + 3, part < fits ? part : fits);
			at += part;
		}
		if (count)
			memcpy(lo, refs[count - 1].key, from = refs[count - 1].len);
	} while (count == VAH_SCAN_MAX && at < room);
	if (!reading.number)
		return VAH_NOT_FOUND;
	if (count < VAH_SCAN_MAX && reading.left)
		return LONG_NOT_WHOLE;
	*size = at + (size_t)reading.left;
	return VAH_OK;
}

/* What was refused: a half is not to be kept. After VAH_GIVE_WAY all of the transaction is made again. */
static inline int long_refused(vah_txn *txn, int rc, uint64_t save)
{
	if (rc && rc != VAH_GIVE_WAY)
		vah_roll_to(txn, save);
	return rc;
}

/* Deletes a value. VAH_NOT_FOUND where there is none. */
static inline int long_delete(vah_txn *txn, const char *name, const void *key, size_t key_len)
{
	uint8_t lo[VAH_KEY_MAX];
	vah_ref refs[VAH_SCAN_MAX];
	size_t len, count, all = 0;
	uint64_t save;
	int rc = long_prefix(name, key, key_len, lo, &len);
	if (rc || (rc = vah_savepoint(txn, &save)))
		return rc;
	do {
		if ((rc = long_parts(txn, lo, len, 0, refs, &count)))
			return long_refused(txn, rc, save);
		for (size_t i = 0; i < count; i++, all++)
			if ((rc = vah_delete(txn, refs[i].key, refs[i].len)))
				return long_refused(txn, rc, save);
	} while (count == VAH_SCAN_MAX);
	return all ? VAH_OK : VAH_NOT_FOUND;
}

/* Puts a value, in the place of one that is there. VAH_INVALID where it has too many parts. */
static inline int long_put(vah_txn *txn, const char *name, const void *key, size_t key_len, const void *value, size_t size)
{
	uint8_t part[VAH_KEY_MAX];
	size_t front, len;
	uint64_t left, save;
	int rc = long_prefix(name, key, key_len, part, &front);
	if (rc || (rc = vah_long_part(part, front, value, size, 0, &len, &left)) || (rc = vah_savepoint(txn, &save)))
		return rc;
	if ((rc = long_delete(txn, name, key, key_len)) && rc != VAH_NOT_FOUND)
		return rc;
	for (uint32_t n = 0; !(rc = vah_long_part(part, front, value, size, n, &len, &left)); n++)
		if ((rc = vah_insert(txn, part, len, left)))
			return long_refused(txn, rc, save);
	return rc == VAH_NOT_FOUND ? VAH_OK : rc;
}

#endif
