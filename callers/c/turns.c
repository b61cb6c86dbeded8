/* The lock of a store: who holds it, who waits for what, and who may go on.
 *
 * Threads that wait do so for one of four things: for a force of the log (their commit was made), for the end of a transaction that has a lock, for
 * a place, or for their turn to begin. Only the second and the third may last for ever by the fault of callers, so only these two are looked at
 * for deadlocks: a force comes when nobody else is awake, and a turn comes as whoever is left alone is not waited for. */
#define _GNU_SOURCE
#include "internal.h"
#include <time.h>
#include <unistd.h>

/* So many steps at most are made while a commit waits for a force. */
enum { LONG_WAIT = 256 };

/* Who has made no step while the tick rose so often is left alone: a tenth of a second, as the first of the two may come at once. */
enum { TICK_NS = 100000000, ALONE_TICKS = 2 };

uint64_t this_thread(void)
{
	static atomic_ullong threads;
	static _Thread_local uint64_t own;
	if (!own)
		own = atomic_fetch_add(&threads, 1) + 1;
	return own;
}

/* ---- the lock ---- */

/* Who waits for the lock is awake: it may bring one commit more to those that wait for a force. */
void enter(struct store *s)
{
	atomic_fetch_add(&s->awake, 1);
	pthread_mutex_lock(&s->lock);
	atomic_fetch_add(&s->turns, 1);
}

/* Whether the commits that wait for a force have to wait no longer: nobody but this caller is awake, or they have waited long. */
int is_force_due(struct store *s)
{
	return s->committing && (atomic_load(&s->awake) == 1 || s->since >= LONG_WAIT);
}

/* One caller less is awake. The last one leaves the force to one that waits for it, so that none waits for nobody. */
static void leave(struct store *s)
{
	if (is_force_due(s)) {
		unsigned one = s->asleep > 0;
		s->asleep -= one;
		s->called += one;
		atomic_fetch_add(&s->awake, one);
		pthread_cond_signal(&s->forced);
	}
	atomic_fetch_sub(&s->awake, 1);
}

void done(struct store *s)
{
	leave(s);
	pthread_mutex_unlock(&s->lock);
}

/* The lock goes to whoever is there first, which would be the one that lets go of it: so it waits a little, and until as many have had it as wanted it.
 * A second is enough for each, whatever the machine does. */
void let_others_in(struct store *s)
{
	leave(s);
	unsigned long long turns = atomic_load(&s->turns), others = atomic_load(&s->awake);
	pthread_mutex_unlock(&s->lock);
	for (int i = 0; i == 0 || (i < 20000 && atomic_load(&s->turns) - turns < others); i++)
		usleep(50);
	enter(s);
}

/* Who is woken is awake from then on, and not from when the machine has it run: those that go on before it wait for what it brings. */
void sleep_for_force(struct store *s)
{
	uint64_t before = s->woken;
	s->asleep++;
	leave(s);
	pthread_cond_wait(&s->forced, &s->lock);
	atomic_fetch_add(&s->turns, 1);
	if (s->woken != before)
		return;
	if (s->called) { /* by a call for it, or for another one, which then counts itself */
		s->called--;
	} else {
		s->asleep--;
		atomic_fetch_add(&s->awake, 1);
	}
}

void wake_for_force(struct store *s)
{
	atomic_fetch_add(&s->awake, s->asleep);
	s->asleep = s->called = 0;
	s->woken++;
	pthread_cond_broadcast(&s->forced);
}

/* ---- waits ---- */

static uint64_t now_ns(void)
{
	struct timespec now;
	clock_gettime(CLOCK_MONOTONIC, &now);
	return (uint64_t)now.tv_sec * 1000000000 + (uint64_t)now.tv_nsec;
}

/* The clock is asked by those alone that wait, or are refused as somebody is first, so that other calls cost none of it. */
static void advance_tick(struct store *s)
{
	uint64_t now = now_ns();
	if (now - s->tick_ns >= TICK_NS) {
		s->tick++;
		s->tick_ns = now;
	}
}

static void begin_wait(struct store *s, struct wait *w)
{
	if (w->is_begun)
		return;
	w->is_begun = 1;
	w->closings = s->closings;
	w->until = UINT64_MAX;
	if (w->limit_ms && w->limit_ms < UINT64_MAX / 2000000)
		w->until = now_ns() + w->limit_ms * 1000000;
	s->waits++;
}

/* Sleeps until something is told, until the wait has lasted as long as it may, or, where ticks count, until the next one. VAH_BUSY where it is not
 * to be gone on with. The lock is held before it and after it. */
static int sleep_on(struct store *s, pthread_cond_t *told, struct wait *w, int has_ticks)
{
	uint64_t until = w->until;
	if (has_ticks && s->tick_ns + TICK_NS < until)
		until = s->tick_ns + TICK_NS;
	leave(s);
	if (until == UINT64_MAX)
		pthread_cond_wait(told, &s->lock);
	else
		pthread_cond_timedwait(told, &s->lock, &(struct timespec){ (time_t)(until / 1000000000), (long)(until % 1000000000) });
	atomic_fetch_add(&s->awake, 1);
	if (has_ticks)
		advance_tick(s);
	return w->closings != s->closings || (w->until != UINT64_MAX && now_ns() >= w->until) ? VAH_BUSY : VAH_OK;
}

void wake_for_end(struct store *s)
{
	if (s->waiting)
		pthread_cond_broadcast(&s->ended);
	if (s->queueing && s->has_failed)
		pthread_cond_broadcast(&s->room);
}

void send_back(struct store *s)
{
	s->closings++;
	pthread_cond_broadcast(&s->ended);
	pthread_cond_broadcast(&s->room);
}

/* ---- deadlocks ---- */

/* A thread that sleeps: until the transaction in a place has another number, or, where that is NULL, until a place of its store is free. */
struct sleeper {
	uint64_t thread;
	struct store *store;
	struct place *holder;
	uint64_t number;
	struct sleeper *next, *todo;
	int is_seen;
};

/* Those of all stores. Shells stay, so their places may be read by whoever goes through these. */
static struct sleeper *sleepers;
static pthread_mutex_t sleepers_lock = PTHREAD_MUTEX_INITIALIZER;

static struct sleeper *find_sleeper(uint64_t thread)
{
	struct sleeper *it = sleepers;
	while (it && it->thread != thread)
		it = it->next;
	return it;
}

/* Whether the thread that has a place can go on, as it does not sleep here, or nobody has it. Else it is one more of those to look at. */
static int is_awake(const struct place *p, struct sleeper **todo)
{
	uint64_t thread = atomic_load(&p->going->thread);
	struct sleeper *it = thread ? find_sleeper(thread) : NULL;
	if (!it)
		return 1;
	if (!it->is_seen) {
		it->is_seen = 1;
		it->todo = *todo;
		*todo = it;
	}
	return 0;
}

/* Whether a sleeper waits for somebody who can go on. */
static int waits_for_awake(const struct sleeper *it, struct sleeper **todo)
{
	if (it->holder)
		return atomic_load(&it->holder->going->number) != it->number || is_awake(it->holder, todo);
	for (int i = 0; i < PLACES; i++)
		if (is_awake(&it->store->places[i], todo))
			return 1;
	return 0;
}

/* Whether nobody whom a sleeper waits for can go on, nor whom these wait for: each of them is woken by any one of those that it waits for. */
static int is_deadlock(struct sleeper *mine)
{
	struct sleeper *todo = mine;
	for (struct sleeper *it = sleepers; it; it = it->next)
		it->is_seen = 0;
	mine->todo = NULL;
	mine->is_seen = 1;
	while (todo) {
		struct sleeper *it = todo;
		todo = it->todo;
		if (waits_for_awake(it, &todo))
			return 0;
	}
	return 1;
}

/* A sleeper comes to the others and goes. That none of them waits for itself is looked at in one with its coming, so the last one of a ring sees it. */
static int come(struct sleeper *mine)
{
	pthread_mutex_lock(&sleepers_lock);
	mine->next = sleepers;
	sleepers = mine;
	int is_stuck = is_deadlock(mine);
	pthread_mutex_unlock(&sleepers_lock);
	return is_stuck;
}

static void go(struct sleeper *mine)
{
	struct sleeper **at = &sleepers;
	pthread_mutex_lock(&sleepers_lock);
	while (*at != mine)
		at = &(*at)->next;
	*at = mine->next;
	pthread_mutex_unlock(&sleepers_lock);
}

/* Nobody else has the lock of the sleepers when a child is made, and none of them is there. */
void hold_sleepers(void) { pthread_mutex_lock(&sleepers_lock); }

void let_go_of_sleepers(int is_child)
{
	if (is_child)
		sleepers = NULL;
	pthread_mutex_unlock(&sleepers_lock);
}

/* Sleeps as one that others may wait for. */
static int sleep_among(struct sleeper *mine, pthread_cond_t *told, unsigned *count, struct wait *w)
{
	int code = come(mine) ? VAH_DEADLOCK : VAH_OK;
	if (!code) {
		begin_wait(mine->store, w);
		++*count;
		code = sleep_on(mine->store, told, w, 0);
		--*count;
	}
	go(mine);
	return code;
}

static struct place *place_of_number(struct store *s, uint64_t number)
{
	for (int i = 0; i < PLACES; i++)
		if (txn_number(&s->places[i]) == number)
			return &s->places[i];
	return NULL;
}

static int sleep_for_lock(struct store *s, uint64_t holder, struct wait *w)
{
	struct place *at;
	int code;
	if ((at = place_of_number(s, holder)))
		return sleep_among(&(struct sleeper){ .thread = this_thread(), .store = s, .holder = at, .number = holder }, &s->ended, &s->waiting, w);
	begin_wait(s, w); /* it was let go of by a rollback that failed, and nobody is known to have it */
	s->waiting++;
	code = sleep_on(s, &s->ended, w, 0);
	s->waiting--;
	return code;
}

int wait_for_lock(struct store *s, struct place *p, uint64_t holder, struct wait *w)
{
	uint64_t serial = p->serial;
	if (p->flags & VAH_NO_WAIT)
		return VAH_BUSY;
	p->sleeping++;
	int code = sleep_for_lock(s, holder, w);
	if (p->serial == serial) /* else the place is another one's, which counts its own */
		p->sleeping--;
	return code;
}

/* ---- turns: who begins now is decided by the proved library ---- */

static uint64_t ticket_of(const struct store *s, const struct place *p) { return p ? (uint64_t)(p - s->places) + 1 : 0; }

/* Who asks, in a place or for one. */
static struct asker asker_of(const struct store *s, const struct place *p)
{
	return (struct asker){ .ticket = ticket_of(s, p), .mine = p ? p->had : 0, .came = p ? p->from : 0, .thread = this_thread(),
		.tick = s->tick, .patience = ALONE_TICKS };
}

int has_own(const struct store *s) { return im_has_own(s->going, PLACES, this_thread()); }

static void let_go_of_first(struct store *s)
{
	s->first = NULL;
	if (s->waiting)
		pthread_cond_broadcast(&s->ended);
	if (s->queueing)
		pthread_cond_broadcast(&s->room);
}

static struct place *place_of_returning(struct store *s, uint64_t had)
{
	for (struct place *it = s->places; had && it < s->places + PLACES; it++)
		if (it->going->had == had)
			return it;
	return NULL;
}

/* Who is to be first, where nobody is any more. */
static void choose_first(struct store *s, const struct place *asks)
{
	if (s->first && im_is_left_alone(s->tick, ALONE_TICKS, s->first->going->seen))
		let_go_of_first(s);
	if (s->first)
		return;
	s->first = place_of_returning(s, im_earliest(s->going, PLACES));
	if (s->first && s->first != asks && s->waiting)
		pthread_cond_broadcast(&s->ended);
}

/* Whether it is a transaction's turn to begin. */
static int is_turn(struct store *s, const struct place *p)
{
	choose_first(s, p);
	struct asker asker = asker_of(s, p);
	return im_may_begin(s->going, PLACES, ticket_of(s, s->first), &asker);
}

static int sleep_for_place(struct store *s, struct wait *w)
{
	int code;
	s->placeless++;
	code = sleep_among(&(struct sleeper){ .thread = this_thread(), .store = s }, &s->room, &s->queueing, w);
	s->placeless--;
	return code;
}

/* Whether there is no place for a newcomer: they are all taken, or those that are free are for others that have waited. */
static int is_full(const struct store *s, unsigned flags, const struct wait *w)
{
	return s->taken == PLACES || (s->placeless && !w->is_begun && !(flags & VAH_NO_WAIT));
}

static int sleep_for_turn(struct store *s, const struct place *p, struct wait *w)
{
	unsigned *count = p ? &s->waiting : &s->queueing;
	int code;
	begin_wait(s, w);
	++*count;
	code = sleep_on(s, p ? &s->ended : &s->room, w, 1);
	--*count;
	return code;
}

/* Without a wait, what stands in the way of a beginning. Where only older ones do, it begins all the same, and may give way to them again. */
static int unless_waiting(const struct store *s, const struct place *p, int lacks_place)
{
	if (lacks_place)
		return VAH_TOO_MANY;
	return s->first && s->first != p ? VAH_BUSY : VAH_OK;
}

static int sleep_to_begin(struct store *s, struct place *p, unsigned flags, struct wait *w)
{
	uint64_t serial = p ? p->serial : 0;
	while (!s->has_failed) {
		int code, lacks_place = !p && is_full(s, flags, w);
		if (flags & VAH_NO_WAIT && s->first)
			advance_tick(s); /* as there may be nobody who waits, for whom who is first would be left alone */
		if (!lacks_place && is_turn(s, p))
			break;
		if (flags & VAH_NO_WAIT)
			return unless_waiting(s, p, lacks_place);
		code = lacks_place ? sleep_for_place(s, w) : sleep_for_turn(s, p, w);
		if (p && (!p->is_taken || p->serial != serial))
			return VAH_NO_TRANSACTION; /* another thread has ended it meanwhile */
		if (code)
			return code;
	}
	return VAH_OK;
}

int wait_to_begin(struct store *s, struct place *p, unsigned flags, struct wait *w)
{
	int code;
	if (p && !(flags & VAH_NO_WAIT)) {
		p->going->had = p->had;
		p->going->seen = UINT64_MAX;
	}
	code = sleep_to_begin(s, p, flags, w);
	if (code == VAH_NO_TRANSACTION)
		return code;
	if (p) {
		p->going->had = 0;
		p->going->seen = s->tick;
	}
	if (!p && w->is_begun && s->queueing && s->taken + !code < PLACES)
		pthread_cond_signal(&s->room); /* there is more room, or what it was woken for is of use to another */
	return code;
}

/* Whether one that is older is active, of another thread, left alone or not. */
static int has_older_beside(const struct store *s, const struct place *p)
{
	struct asker asker = asker_of(s, p);
	uint64_t oldest = im_oldest(s->going, PLACES, &asker, asker.tick);
	return oldest && oldest < txn_number(p);
}

void note_victim(struct store *s, struct place *p)
{
	p->is_own_victim = !has_older_beside(s, p);
	p->going->agains++;
	if (s->first == p) {
		p->going->agains = 0;
		let_go_of_first(s);
	}
}

/* ---- places ---- */

struct place *take_place(struct store *s, unsigned flags, uint64_t wait_ms, uint64_t number)
{
	struct place *p = s->places;
	while (p->is_taken)
		p++;
	p->serial++;
	p->is_taken = 1;
	p->is_committing = p->taken_back = p->is_to_end = p->is_returning = p->is_own_victim = 0;
	p->changes = 0;
	p->sleeping = 0;
	p->flags = flags;
	p->wait_ms = wait_ms;
	p->had = p->from = 0;
	p->going->agains = p->going->had = 0;
	p->going->seen = s->tick;
	atomic_store(&p->going->number, number);
	atomic_store(&p->going->thread, this_thread());
	s->taken++;
	return p;
}

void free_place(struct store *s, struct place *p)
{
	p->is_taken = 0;
	p->going->had = 0; /* its call may still sleep, and is not to be first by a place that is free */
	atomic_store(&p->going->number, 0);
	atomic_store(&p->going->thread, 0);
	s->taken--;
	if (s->waiting)
		pthread_cond_broadcast(&s->ended); /* who begins again may wait for this place, which a force for several commits left as it was */
	if (s->first == p)
		let_go_of_first(s);
	else if (s->queueing)
		pthread_cond_signal(&s->room);
}
