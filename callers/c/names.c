/* The names of stores and transactions, and what they tell.
 *
 * A handle that a caller has is a number that looks like a pointer: it is taken apart and looked up, and never followed. It has the number of a
 * shell, for a transaction the number of a place in it, and a serial number that is never given again, so a handle that has ended is known for
 * ever. Its highest bits are those of no address on this machine: a program that follows one ends there, and reads nothing wrong. */
#define _GNU_SOURCE
#include "internal.h"
#include <stdlib.h>

enum { KIND_AT = 60, SHELL_AT = 48, PLACE_AT = 42, A_STORE = 5, A_TXN = 6 };
_Static_assert(sizeof(void *) == 8, "a name has 64 bits");
_Static_assert(SHELLS == 1 << (KIND_AT - SHELL_AT) && PLACES == 1 << (SHELL_AT - PLACE_AT), "each has its bits in a name");

/* The shells, each of which stays for ever. They are lent under the lock, and looked up without it. */
static struct store *_Atomic shells[SHELLS];
static pthread_mutex_t shells_lock = PTHREAD_MUTEX_INITIALIZER;

/* How many forks lie above this process. */
static atomic_uint forks;
static pthread_once_t fork_once = PTHREAD_ONCE_INIT;

/* No other thread has a lock that all stores share when a child is made, as nobody would let go of it there. */
static void before_fork(void)
{
	pthread_mutex_lock(&shells_lock);
	hold_sleepers();
}

static void in_parent(void)
{
	let_go_of_sleepers(0);
	pthread_mutex_unlock(&shells_lock);
}

static void in_child(void)
{
	atomic_fetch_add(&forks, 1);
	let_go_of_sleepers(1);
	pthread_mutex_unlock(&shells_lock);
}

static void watch_forks(void) { pthread_atfork(before_fork, in_parent, in_child); }

static int is_of_parent(const struct store *s) { return atomic_load(&s->forks) != atomic_load(&forks); }

/* ---- shells ---- */

static struct store *new_shell(uint64_t index)
{
	struct store *s = calloc(1, sizeof *s);
	pthread_condattr_t steady;
	if (!s)
		return NULL;
	s->index = index;
	for (int i = 0; i < PLACES; i++)
		s->places[i].going = &s->going[i];
	pthread_mutex_init(&s->lock, NULL);
	pthread_condattr_init(&steady);
	pthread_condattr_setclock(&steady, CLOCK_MONOTONIC);
	pthread_cond_init(&s->ended, &steady);
	pthread_cond_init(&s->room, &steady);
	pthread_cond_init(&s->forced, &steady);
	pthread_condattr_destroy(&steady);
	return s;
}

/* The shell in a place, where it may be lent: it is made where there is none. One of the parent's may have a lock that nobody lets go of. */
static struct store *shell_at(uint64_t index, int *code)
{
	struct store *s = atomic_load(&shells[index]);
	if (s)
		return s->is_lent || is_of_parent(s) ? NULL : s;
	if (!(s = new_shell(index)))
		*code = VAH_MEMORY;
	else
		atomic_store(&s->forks, atomic_load(&forks));
	atomic_store(&shells[index], s);
	return s;
}

struct store *lend_shell(int *code)
{
	struct store *s = NULL;
	pthread_once(&fork_once, watch_forks);
	pthread_mutex_lock(&shells_lock);
	*code = VAH_OK;
	for (uint64_t i = 0; !s && !*code && i < SHELLS; i++)
		s = shell_at(i, code);
	if (s)
		s->is_lent = 1;
	else if (!*code)
		*code = VAH_TOO_MANY;
	pthread_mutex_unlock(&shells_lock);
	return s;
}

void give_back(struct store *s)
{
	pthread_mutex_lock(&shells_lock);
	s->is_lent = is_of_parent(s);
	pthread_mutex_unlock(&shells_lock);
}

/* ---- names ---- */

static void *name(uint64_t kind, uint64_t shell, uint64_t rest)
{
	return (void *)(uintptr_t)(kind << KIND_AT | shell << SHELL_AT | rest);
}

static uint64_t serial_of_store(const struct store *s) { return atomic_load(&s->serial) & ((UINT64_C(1) << SHELL_AT) - 1); }

static uint64_t serial_of_place(const struct place *p) { return p->serial & ((UINT64_C(1) << PLACE_AT) - 1); }

vah_store *name_of_store(const struct store *s) { return name(A_STORE, s->index, serial_of_store(s)); }

vah_txn *name_of_txn(const struct store *s, const struct place *p)
{
	return name(A_TXN, s->index, (uint64_t)(p - s->places) << PLACE_AT | serial_of_place(p));
}

/* The shell that a name of a kind tells, or NULL. */
static struct store *shell_of(const void *name, uint64_t kind)
{
	uint64_t bits = (uint64_t)(uintptr_t)name;
	return bits >> KIND_AT == kind ? atomic_load(&shells[bits >> SHELL_AT & (SHELLS - 1)]) : NULL;
}

static struct place *place_of(struct store *s, const vah_txn *name) { return &s->places[(uintptr_t)name >> PLACE_AT & (PLACES - 1)]; }

static int is_store(const struct store *s, const vah_store *name) { return atomic_load(&s->is_open) && name_of_store(s) == name; }

static int is_txn(const struct store *s, const struct place *p, const vah_txn *name) { return p->is_taken && name_of_txn(s, p) == name; }

int enter_store(const vah_store *name, struct store **to)
{
	struct store *s = shell_of(name, A_STORE);
	if (!s)
		return VAH_INVALID;
	if (is_of_parent(s))
		return is_store(s, name) ? VAH_FORKED : VAH_CLOSED;
	enter(s);
	if (is_store(s, name)) {
		*to = s;
		return VAH_OK;
	}
	done(s);
	return VAH_CLOSED;
}

static int find_txn(const vah_txn *name, int is_to_end, struct store **to, struct place **at)
{
	struct store *s = shell_of(name, A_TXN);
	if (!s)
		return VAH_INVALID;
	struct place *p = place_of(s, name);
	if (is_of_parent(s)) /* where nobody else works on it, as the threads of the parent are not here */
		return is_txn(s, p, name) ? VAH_FORKED : VAH_NO_TRANSACTION;
	enter(s);
	int code = !is_txn(s, p, name) || p->is_committing ? VAH_NO_TRANSACTION : p->taken_back ? VAH_ROLLING_BACK : VAH_OK;
	if (code) {
		p->is_to_end |= code == VAH_ROLLING_BACK && is_to_end;
		done(s);
		return code;
	}
	if (!p->sleeping) /* else those that wait for it wait for the thread that sleeps */
		atomic_store_explicit(&p->going->thread, this_thread(), memory_order_relaxed);
	*to = s;
	*at = p;
	return VAH_OK;
}

int enter_txn(const vah_txn *name, struct store **to, struct place **at) { return find_txn(name, 0, to, at); }

int enter_txn_to_end(const vah_txn *name, struct store **to, struct place **at) { return find_txn(name, 1, to, at); }

int leave_to_parent(const vah_store *name, struct store **to)
{
	struct store *s = shell_of(name, A_STORE);
	int is_here = s && is_store(s, name), was_open = 1;
	*to = s;
	return is_here && atomic_compare_exchange_strong(&s->is_open, &was_open, 0);
}
