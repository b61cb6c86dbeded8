/* What is asked of the proved library, one step after another, under the lock. */
#define _GNU_SOURCE
#include "internal.h"
#include <string.h>

void step(struct store *s, struct call *call)
{
	vah_device_serve(&s->device);
	im_step(s->handle, call);
}

/* A key of more than 255 bytes is refused by the library, which reads 256 at most. Of a memcpy of so few bytes the compiler makes an instruction that
 * takes a fiftieth of a look-up to begin. */
static void set_key(uint8_t *to, uint32_t *to_len, const void *key, size_t len)
{
	*to_len = len > 256 ? 256 : (uint32_t)len;
	if (len)
		memmove(to, key, *to_len);
}

/* Wakes those for whom an answer changed something. */
static void wake(struct store *s, uint32_t what, const struct told *told)
{
	int is_forced = what == FORCE && told->word == DONE, is_over = breaks(told);
	s->since++;
	s->has_failed |= is_over;
	s->forces += is_forced;
	if (s->committing && (is_forced || s->has_failed)) {
		s->committing = 0;
		wake_for_force(s);
		is_over = 1;
	}
	if (is_over || told->word == COMMITTED || told->word == ROLLED_BACK)
		wake_for_end(s);
}

#ifdef VAH_TEST
unsigned long vah_test_refused_insert, vah_test_refused_continue;

static int is_refused(uint32_t what)
{
	unsigned long *left = what == INSERT ? &vah_test_refused_insert : &vah_test_refused_continue;
	return (what == INSERT || what == CONTINUE) && *left && !--*left;
}
#endif

struct told ask_in(struct store *s, struct call *call, struct place *p, const struct question *q)
{
#ifdef VAH_TEST
	if (is_refused(q->what))
		return (struct told){ REFUSED, VAH_MEMORY, 0 };
#endif
	if (s->has_failed && q->what != STAT) /* by a read for a copy too, after which the proved library fails at the next call of the device alone */
		return (struct told){ REFUSED, VAH_FAILED, 0 };
	call->step = q->what;
	call->txn = p ? txn_number(p) : 0;
	call->limit = q->limit;
	call->number = q->number;
	set_key(call->key, &call->key_len, q->key, q->key_len);
	set_key(call->hi, &call->hi_len, q->hi, q->hi_len);
	step(s, call);
	struct told told = { call->word, call->fault, call->number };
	if (p)
		p->changes += told.word == INSERTED || told.word == DELETED;
	wake(s, q->what, &told);
	return told;
}

struct told ask_store(struct store *s, uint32_t what) { return ask_in(s, s->call, NULL, &(struct question){ .what = what }); }

struct told ask(struct store *s, struct place *p, const struct question *q) { return ask_in(s, s->call, p, q); }

struct told ask_what(struct store *s, struct place *p, uint32_t what) { return ask(s, p, &(struct question){ .what = what }); }

/* The last caller that is awake forces the log for all of them. */
struct told force_for_all(struct store *s)
{
	struct told told = { REFUSED, VAH_DEVICE, 0 };
	uint64_t before = s->forces;
	if (!s->committing++)
		s->since = 0;
	while (s->forces == before && !s->has_failed) {
		if (!is_force_due(s)) {
			sleep_for_force(s);
			continue;
		}
		told = ask_store(s, FORCE);
		if (told.word == REFUSED)
			break;
	}
	if (s->forces != before)
		told = (struct told){ DONE, 0, 0 };
	return told;
}
