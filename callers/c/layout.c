/* Where names and long values lie among the keys of a store. The proved library says all of it (crates/im_names); here is what it asks of a caller. */
#include "internal.h"

_Static_assert(sizeof(vah_reading) == 16 && offsetof(vah_reading, number) == 8 && offsetof(vah_reading, is_half) == 12,
	"a reading is laid out as im_names has it");
enum { LONGEST_FRONT = 219 };

/* The proved library takes no pointer that is NULL. */
static const uint8_t *bytes_at(const void *at) { return at ? at : (const uint8_t *)""; }

int vah_name_key(unsigned which, const void *name, size_t name_len, const void *key, size_t key_len, uint8_t *to, size_t *to_len)
{
	if (which > VAH_NAME_PARTS_END || !to || !to_len || (!name && name_len) || (!key && key_len))
		return fail(NULL, VAH_INVALID);
	if (name_len > VAH_KEY_MAX || key_len > VAH_KEY_MAX)
		return fail(NULL, VAH_KEY_LENGTH);
	*to_len = im_name_key(which, bytes_at(name), name_len, bytes_at(key), key_len, to, VAH_KEY_MAX);
	return fail(NULL, *to_len ? VAH_OK : VAH_KEY_LENGTH);
}

int vah_long_part(uint8_t *key, size_t front, const void *value, size_t size, uint32_t number, size_t *key_len, uint64_t *rid)
{
	if (!key || front > LONGEST_FRONT || !key_len || !rid || (!value && size))
		return fail(NULL, VAH_INVALID);
	*key_len = im_long_part(front, bytes_at(value), size, number, key, VAH_KEY_MAX, rid);
	return fail(NULL, *key_len ? VAH_OK : number ? VAH_NOT_FOUND : VAH_INVALID);
}

int vah_long_read(vah_reading *reading, size_t front, const void *key, size_t len, uint64_t rid)
{
	if (!reading || reading->is_half > 1 || (!key && len))
		return fail(NULL, VAH_INVALID);
	return fail(NULL, im_long_read(reading, front, bytes_at(key), len, rid) ? VAH_OK : VAH_INVALID);
}

int vah_long_key(const void *part, size_t len, uint8_t *key, size_t *key_len, size_t *front)
{
	if (len > VAH_KEY_MAX || !key || !key_len || !front || (!part && len))
		return fail(NULL, VAH_INVALID);
	*key_len = im_long_key(bytes_at(part), len, key, VAH_KEY_MAX, front);
	return fail(NULL, *key_len ? VAH_OK : VAH_INVALID);
}
