/* A transaction: how it begins, ends, and begins again. */
#include "internal.h"

/* Begins one in a place that is free. Where the store has failed there may be none, and the question tells so first. */
static int begin_in(struct store *s, unsigned flags, uint64_t wait_ms, vah_txn **txn)
{
	struct wait w = { .limit_ms = wait_ms };
	int code = wait_to_begin(s, NULL, flags, &w);
	if (code)
		return code;
	struct told told = ask_store(s, BEGIN);
	if (told.word == STARTED)
		*txn = name_of_txn(s, take_place(s, flags, wait_ms, told.number));
	return told_code(&told);
}

static int begin(vah_store *store, unsigned flags, const uint64_t *wait_ms, vah_txn **txn)
{
	struct store *s;
	int code = txn && !(flags & ~VAH_NO_WAIT) ? enter_store(store, &s) : VAH_INVALID;
	if (code)
		return fail(NULL, code);
	return leave_with(s, begin_in(s, flags, wait_ms ? *wait_ms : s->wait_ms, txn));
}

int vah_begin_with(vah_store *store, unsigned flags, vah_txn **txn) { return begin(store, flags, NULL, txn); }

int vah_begin_within(vah_store *store, unsigned flags, uint64_t wait_ms, vah_txn **txn) { return begin(store, flags, &wait_ms, txn); }

int vah_set_wait(vah_txn *txn, uint64_t wait_ms)
{
	struct store *s;
	struct place *p;
	int code = enter_txn(txn, &s, &p);
	if (code)
		return fail(NULL, code);
	p->wait_ms = wait_ms;
	return leave_with(s, VAH_OK);
}

/* ---- its end ---- */

/* Makes a transaction durable, with all that wait for the same. While it waits no other call has to do with its place. */
static struct told commit_in(struct store *s, struct place *p)
{
	struct told told = ask_what(s, p, COMMIT);
	if (told.word != MORE)
		return told;
	p->is_committing = 1;
	p->going->seen = UINT64_MAX;
	told = force_for_all(s);
	p->is_committing = 0;
	p->going->seen = s->tick;
	return told;
}

int vah_commit(vah_txn *txn)
{
	struct store *s;
	struct place *p;
	int code = enter_txn(txn, &s, &p);
	if (code)
		return fail(NULL, code);
	if (is_over(p))
		return leave_with(s, VAH_MUST_ROLL_BACK);
	if (!(code = finish_return(s, p))) {
		struct told told = commit_in(s, p);
		code = told_code(&told);
	}
	if (code != VAH_MUST_ROLL_BACK && code != VAH_ROLLING_BACK && code != VAH_MEMORY && p->is_taken)
		free_place(s, p);
	return leave_with(s, code);
}

/* Takes changes back, one at a time, as long as there are more, between which others' calls come, but none of this transaction. */
static struct told go_back(struct store *s, struct place *p, int what, struct told told)
{
	p->taken_back = what;
	while (told.word == MORE) {
		done(s);
		enter(s);
		told = ask_what(s, p, CONTINUE);
		p->going->seen = s->tick;
	}
	p->taken_back = NOTHING;
	return told;
}

/* Takes back what is left of a return. */
static struct told go_on_returning(struct store *s, struct place *p, int what)
{
	struct told told = { p->is_returning ? MORE : DONE, 0, 0 };
	told = go_back(s, p, what, told);
	p->is_returning = told.word != DONE;
	return told;
}

/* Takes back what a transaction did. */
static int take_back(struct store *s, struct place *p)
{
	struct told told = go_on_returning(s, p, ALL);
	if (told.word == DONE)
		told = go_back(s, p, ALL, ask_what(s, p, ROLLBACK));
	return told_code(&told);
}

int vah_rollback(vah_txn *txn)
{
	struct store *s;
	struct place *p;
	if (!txn)
		return VAH_OK;
	int code = enter_txn_to_end(txn, &s, &p);
	if (code)
		return fail(NULL, code);
	if (txn_number(p))
		code = take_back(s, p);
	free_place(s, p);
	return leave_with(s, code);
}

/* ---- a part of it ---- */

struct told begin_return(struct store *s, struct place *p, uint64_t left)
{
	struct told told = ask(s, p, &(struct question){ .what = ROLL_TO, .number = left });
	p->going->seen = s->tick;
	if (told.word == MORE) {
		p->is_returning = 1;
		p->changes = left;
	}
	return told;
}

int finish_return(struct store *s, struct place *p)
{
	if (!p->is_returning)
		return VAH_OK;
	struct told told = go_on_returning(s, p, PART);
	if (!p->is_to_end)
		return told_code(&told);
	take_back(s, p);
	free_place(s, p);
	return VAH_NO_TRANSACTION;
}

int vah_savepoint(vah_txn *txn, uint64_t *save)
{
	struct store *s;
	struct place *p;
	int code = save ? enter_txn(txn, &s, &p) : VAH_INVALID;
	if (code)
		return fail(NULL, code);
	if (is_over(p))
		return leave_with(s, VAH_MUST_ROLL_BACK);
	*save = p->changes;
	return leave_with(s, VAH_OK);
}

/* Returns to so many changes, after an earlier return, where one was left half way. */
static int return_to(struct store *s, struct place *p, uint64_t save)
{
	int code = finish_return(s, p);
	if (code)
		return code;
	struct told told = begin_return(s, p, save);
	return told.word == MORE ? finish_return(s, p) : told_code(&told);
}

int vah_roll_to(vah_txn *txn, uint64_t save)
{
	struct store *s;
	struct place *p;
	int code = enter_txn(txn, &s, &p);
	if (code)
		return fail(NULL, code);
	return leave_with(s, is_over(p) ? VAH_MUST_ROLL_BACK : return_to(s, p, save));
}

/* ---- again ---- */

/* Takes back what a transaction did that is to begin again. */
static int give_way(struct store *s, struct place *p)
{
	uint64_t had = txn_number(p);
	int code = had ? take_back(s, p) : VAH_OK;
	if (!code && had) {
		atomic_store(&p->going->number, 0);
		p->had = had;
		p->from = s->tick;
	}
	return code;
}

/* Begins a transaction again in its place. Where it gave way to one of its own thread, that one would have to end first. */
static int begin_again(struct store *s, struct place *p)
{
	struct wait w = { .limit_ms = p->wait_ms };
	if (p->is_own_victim && !(p->flags & VAH_NO_WAIT) && has_own(s))
		return VAH_DEADLOCK;
	int code = wait_to_begin(s, p, p->flags, &w);
	if (code)
		return code;
	struct told told = ask_store(s, BEGIN);
	if (told.word == STARTED) {
		s->restarts++;
		p->is_own_victim = 0;
		p->changes = 0;
		atomic_store(&p->going->number, told.number);
	}
	return told_code(&told);
}

int vah_again(vah_txn *txn)
{
	struct store *s;
	struct place *p;
	int code = enter_txn(txn, &s, &p);
	if (code)
		return fail(NULL, code);
	if (p->going->had)
		return leave_with(s, VAH_BUSY); /* another thread waits to begin it */
	uint64_t serial = p->serial;
	if (!(code = give_way(s, p)))
		code = p->is_to_end ? VAH_NO_TRANSACTION : begin_again(s, p);
	if (code && code != VAH_BUSY && code != VAH_DEADLOCK && p->is_taken && p->serial == serial)
		free_place(s, p);
	return leave_with(s, code);
}
