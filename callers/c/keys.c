/* What is asked in a transaction, by keys. */
#include "internal.h"
#include <stdlib.h>
#include <string.h>

enum { REPLACED = 100 }; /* what a put is answered where the key was there: no word of the proved library */

/* What is asked in a transaction, with room for what it answers. */
struct asking { struct question q; struct call *call; struct told told; };

/* Makes what is asked once. */
typedef void make(struct store *s, struct place *p, struct asking *a);

static void make_step(struct store *s, struct place *p, struct asking *a) { a->told = ask_in(s, a->call, p, &a->q); }

/* Makes what is asked in a transaction, again each time that one has ended while it is blocked. Its code; VAH_BUSY and VAH_DEADLOCK where it was not
 * waited any longer. */
static int make_in(struct store *s, struct place *p, make *makes, struct asking *a)
{
	struct wait w = { .limit_ms = p->wait_ms };
	uint64_t serial = p->serial, number = txn_number(p);
	int code;
	if (is_over(p))
		return VAH_MUST_ROLL_BACK;
	if ((code = finish_return(s, p)))
		return code;
	while (makes(s, p, a), a->told.word == BLOCKED || a->told.word == BLOCKED_TREE) {
		code = wait_for_lock(s, p, a->told.number, &w);
		if (p->serial != serial || p->taken_back == ALL || txn_number(p) != number)
			return VAH_NO_TRANSACTION; /* another thread has taken it back meanwhile */
		if (p->taken_back)
			return VAH_ROLLING_BACK;
		if (code)
			return code;
	}
	p->going->seen = s->tick;
	if (a->told.word == DIE)
		note_victim(s, p);
	return told_code(&a->told);
}

static int has_keys(const struct question *q) { return (q->key || !q->key_len) && (q->hi || !q->hi_len); }

/* Enters a transaction to ask something in it. */
static int enter_to_ask(vah_txn *txn, const struct asking *a, struct store **s, struct place **p)
{
	return has_keys(&a->q) ? enter_txn(txn, s, p) : VAH_INVALID;
}

/* Takes an entry out of an answer; where the next one lies. */
static const uint8_t *take_ref(const uint8_t *at, vah_ref *ref)
{
	ref->len = at[0];
	ref->key = at + 1;
	memcpy(&ref->rid, at + 1 + at[0], 8);
	return at + 9 + at[0];
}

static const uint8_t *take_entry(const uint8_t *at, vah_entry *entry)
{
	vah_ref ref;
	const uint8_t *next = take_ref(at, &ref);
	entry->len = (uint8_t)ref.len;
	memcpy(entry->key, ref.key, ref.len);
	entry->rid = ref.rid;
	return next;
}

/* A step by a key; where `number` or `entry` is there, what was answered goes there. */
static int by_key(vah_txn *txn, const struct question *q, uint64_t *number, vah_entry *entry)
{
	struct store *s;
	struct place *p;
	struct asking a = { .q = *q };
	int code = enter_to_ask(txn, &a, &s, &p);
	if (code)
		return fail(NULL, code);
	if (s->is_read_only && (q->what == INSERT || q->what == DELETE))
		return leave_with(s, VAH_READ_ONLY);
	a.call = s->call;
	code = make_in(s, p, make_step, &a);
	if (!code && number)
		*number = a.told.number;
	if (!code && entry)
		take_entry(s->call->out, entry);
	return leave_with(s, code);
}

int vah_fetch(vah_txn *txn, const void *key, size_t len, uint64_t *rid)
{
	return by_key(txn, &(struct question){ .what = FETCH, .key = key, .key_len = len }, rid, NULL);
}

int vah_insert(vah_txn *txn, const void *key, size_t len, uint64_t rid)
{
	return by_key(txn, &(struct question){ .what = INSERT, .number = rid, .key = key, .key_len = len }, NULL, NULL);
}

int vah_delete(vah_txn *txn, const void *key, size_t len)
{
	return by_key(txn, &(struct question){ .what = DELETE, .key = key, .key_len = len }, NULL, NULL);
}

/* A step by a key that answers an entry. */
static int by_key_to(vah_txn *txn, uint32_t what, const void *key, size_t len, vah_entry *entry)
{
	return entry ? by_key(txn, &(struct question){ .what = what, .key = key, .key_len = len }, NULL, entry) : fail(NULL, VAH_INVALID);
}

int vah_seek(vah_txn *txn, const void *key, size_t len, vah_entry *entry) { return by_key_to(txn, SEEK, key, len, entry); }

int vah_next(vah_txn *txn, const void *key, size_t len, vah_entry *entry) { return by_key_to(txn, NEXT, key, len, entry); }

int vah_prev(vah_txn *txn, const void *key, size_t len, vah_entry *entry) { return by_key_to(txn, PREV, key, len, entry); }

int vah_last(vah_txn *txn, vah_entry *entry)
{
	uint8_t greatest[VAH_KEY_MAX];
	memset(greatest, 0xff, sizeof greatest);
	int code = vah_seek(txn, greatest, sizeof greatest, entry); /* the greatest key itself, which no step comes behind */
	return code == VAH_NOT_FOUND ? vah_prev(txn, greatest, sizeof greatest, entry) : code;
}

/* ---- put ---- */

/* Puts a key in once it was taken out. Its locks are those that the delete took, and no other step came in between, so it does not wait; but there
 * may be no room or memory for it. Then the delete is taken back, one change, for which the lock is kept: where there is no memory for that either, the
 * transaction's next call does it first. One that has to give way is taken back whole. */
static struct told put_back_in(struct store *s, struct place *p, const struct question *q, uint64_t previous)
{
	uint64_t before = p->changes - 1;
	struct told told = ask(s, p, q), back;
	if (told.word == INSERTED)
		return (struct told){ REPLACED, 0, previous };
	if (told.word == DIE || breaks(&told))
		return told;
	if ((back = begin_return(s, p, before)).word == MORE && (back = ask_what(s, p, CONTINUE)).word == DONE)
		p->is_returning = 0;
	return breaks(&back) ? back : told;
}

/* Inserts a key, or replaces its row id, once. Blocked it has changed nothing. An insert first, as a new key then costs one step, and no lock more;
 * where the key is there, that has locked it for this transaction, so what is read of it stays. */
static void make_put(struct store *s, struct place *p, struct asking *a)
{
	struct question q = a->q;
	a->told = ask(s, p, &q);
	if (a->told.word != DUPLICATE)
		return;
	q.what = FETCH;
	a->told = ask(s, p, &q);
	if (a->told.word != FOUND)
		return;
	uint64_t previous = a->told.number;
	if (previous == a->q.number) {
		a->told.word = REPLACED;
		return;
	}
	q.what = DELETE;
	a->told = ask(s, p, &q);
	if (a->told.word == DELETED)
		a->told = put_back_in(s, p, &a->q, previous);
}

int vah_put(vah_txn *txn, const void *key, size_t len, uint64_t rid, int *was_there, uint64_t *previous)
{
	struct store *s;
	struct place *p;
	struct asking a = { .q = { .what = INSERT, .number = rid, .key = key, .key_len = len } };
	int code = enter_to_ask(txn, &a, &s, &p);
	if (code)
		return fail(NULL, code);
	code = s->is_read_only ? VAH_READ_ONLY : make_in(s, p, make_put, &a);
	if (!code && was_there)
		*was_there = a.told.word == REPLACED;
	if (!code && previous && a.told.word == REPLACED)
		*previous = a.told.number;
	return leave_with(s, code);
}

/* ---- scans ---- */

static struct asking scan_of(const void *lo, size_t lo_len, const void *hi, size_t hi_len, size_t max)
{
	return (struct asking){ .q = { .what = SCAN, .limit = max > VAH_SCAN_MAX ? VAH_SCAN_MAX : (uint32_t)max,
		.key = lo, .key_len = lo_len, .hi = hi, .hi_len = hi_len } };
}

int vah_scan(vah_txn *txn, const void *lo, size_t lo_len, const void *hi, size_t hi_len, vah_entry *entries, size_t max, size_t *count)
{
	struct store *s;
	struct place *p;
	struct asking a = scan_of(lo, lo_len, hi, hi_len, max);
	int code = entries && count && max ? enter_to_ask(txn, &a, &s, &p) : VAH_INVALID;
	if (code)
		return fail(NULL, code);
	a.call = s->call;
	if (!(code = make_in(s, p, make_step, &a))) {
		const uint8_t *at = s->call->out;
		for (uint64_t i = 0; i < a.told.number; i++)
			at = take_entry(at, &entries[i]);
		*count = (size_t)a.told.number;
	}
	return leave_with(s, code);
}

/* The place's own room for an answer, as that of the store is every call's. It is kept for the next transaction in the place. */
static int has_answer(struct place *p)
{
	if (!p->answer)
		p->answer = malloc(sizeof *p->answer);
	return p->answer != NULL;
}

int vah_scan_refs(vah_txn *txn, const void *lo, size_t lo_len, const void *hi, size_t hi_len, vah_ref *refs, size_t max, size_t *count)
{
	struct store *s;
	struct place *p;
	struct asking a = scan_of(lo, lo_len, hi, hi_len, max);
	int code = refs && count && max ? enter_to_ask(txn, &a, &s, &p) : VAH_INVALID;
	if (code)
		return fail(NULL, code);
	if (!has_answer(p))
		return leave_with(s, VAH_MEMORY);
	a.call = p->answer;
	if (!(code = make_in(s, p, make_step, &a))) {
		const uint8_t *at = p->answer->out;
		for (uint64_t i = 0; i < a.told.number; i++)
			at = take_ref(at, &refs[i]);
		*count = (size_t)a.told.number;
	}
	return leave_with(s, code);
}
