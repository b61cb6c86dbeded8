/* What the files of the library share. */
#ifndef VAH_INTERNAL_H
#define VAH_INTERNAL_H
#include "vahondrisa.h"
#include <pthread.h>
#include <stdatomic.h>
#include <sys/stat.h>
#include <sys/types.h>

/* ---- the exports of the proved library; the allocator of its second one takes no bytes ---- */

struct call;
struct handle;
struct store_opening;
size_t im_size(void);
void im_init(struct handle *at);
void im_open(struct handle *at, struct store_opening *asked);
void im_step(struct handle *at, struct call *call);

/* Who may begin now: crates/im_base_admission/src/going.rt and asker.rt, in the order of C, and what is asked of them, which crates/im_capi says. The
 * numbers that are atomic here are changed under the store's lock alone, and read by the proved library under it. */
struct going {
	atomic_ullong number;   /* the engine's; 0 where it has not begun */
	uint64_t seen;          /* when it made its last step; UINT64_MAX while its call waits for a force, or to begin again */
	atomic_ullong thread;   /* that sleeps in a call of it, or made its last one; 0 where the place is free */
	uint64_t had;           /* while its call waits to begin again, the number that it had; else 0 */
	uint64_t agains;        /* how often it gave way, since it was first */
};
struct asker { uint64_t ticket, mine, came, thread, tick, patience; };
_Static_assert(sizeof(struct going) == 40 && sizeof(struct asker) == 48, "both are laid out as im_base_admission has them");
_Bool im_may_begin(const struct going *going, size_t len, uint64_t first, const struct asker *asker);
uint64_t im_oldest(const struct going *going, size_t len, const struct asker *asker, uint64_t came);
uint64_t im_earliest(const struct going *going, size_t len);
_Bool im_has_own(const struct going *going, size_t len, uint64_t thread);
_Bool im_is_left_alone(uint64_t now, uint64_t patience, uint64_t since);

/* Keys of names and parts of long values: crates/im_names. The buffers have room for 255 bytes, a front has at most 219, and a part 255. */
size_t im_name_key(uint32_t which, const uint8_t *name, size_t name_len, const uint8_t *key, size_t key_len, uint8_t *to, size_t room);
size_t im_long_part(size_t front, const uint8_t *value, size_t size, uint32_t number, uint8_t *to, size_t room, uint64_t *rid);
_Bool im_long_read(vah_reading *reading, size_t front, const uint8_t *key, size_t len, uint64_t rid);
size_t im_long_key(const uint8_t *part, size_t len, uint8_t *to, size_t room, size_t *front);

/* A question to the proved library, with its answer: crates/im_calls/src/call.rt, in the order of C. */
struct call {
	uint32_t step, word, fault, limit;
	uint64_t txn, number;
	uint32_t key_len, hi_len;
	uint64_t out_len;
	uint8_t key[256], hi[256], out[67584];
};
_Static_assert(sizeof(struct call) == 68144 && offsetof(struct call, txn) == 16 && offsetof(struct call, key_len) == 32
	&& offsetof(struct call, out_len) == 40 && offsetof(struct call, key) == 48 && offsetof(struct call, hi) == 304
	&& offsetof(struct call, out) == 560, "the call is laid out as im_calls has it");

/* What an opening asks of it, and the number of a refusal: crates/im_calls/src/opening.rt, in the order of C. */
struct store_opening {
	uint32_t ask, answer;   /* descriptors: any, since vah_device_write and _read stand for them */
	uint32_t read_only, group, frames, fault;
	uint64_t more, max_pages, redo_bytes, log_bytes;
};
_Static_assert(sizeof(struct store_opening) == 56 && offsetof(struct store_opening, frames) == 16 && offsetof(struct store_opening, more) == 24
	&& offsetof(struct store_opening, log_bytes) == 48, "the opening is laid out as im_calls has it");
_Static_assert(sizeof(vah_entry) == 264 && offsetof(vah_entry, key) == 9, "bindings know the entry by these");
_Static_assert(sizeof(vah_ref) == 24 && offsetof(vah_ref, rid) == 16, "bindings know a place in an answer by these");
_Static_assert(sizeof(vah_config) == 72 && offsetof(vah_config, redo_bytes) == 16 && offsetof(vah_config, log_bytes) == 24
	&& offsetof(vah_config, wait_ms) == 32 && offsetof(vah_config, progress) == 40 && offsetof(vah_config, read_only) == 56
	&& offsetof(vah_config, cache_bytes) == 64, "bindings know the config by these");
_Static_assert(sizeof(vah_info) == 104 && offsetof(vah_info, restarts) == 48, "bindings know the info by these");

/* What is asked, and what is answered, by number: crates/im_calls. */
enum { BEGIN, FETCH, SEEK, NEXT, SCAN, INSERT, DELETE, COMMIT, ROLLBACK, CONTINUE, FLUSH_PAGE, FORCE, CHECKPOINT, STAT, CLOSE = 15, SWITCH, PREV,
	COPY_BEGIN, COPY_PIECE, COPY_END, LOAD_BEGIN, LOAD_PUT, LOAD_END, ROLL_TO };
enum { STARTED, FOUND, ABSENT, ENTRY, END, ENTRIES, INSERTED, DUPLICATE, DELETED, COMMITTED, ROLLED_BACK, MORE, BLOCKED, DIE, DONE, REFUSED, BLOCKED_TREE };

/* ---- the device: files.c ---- */

/* The files of a store, as the proved library numbers them; those of its copy are so many later. */
enum { LOG, PAGES, LOG2, FILES };

/* A device call that the store asks for: crates/im_files_caller_disk. */
struct device_call { uint32_t kind, file; uint64_t place, len; };

/* The files of a copy that is under way. They are used under the store's lock, but where they are made and named. */
struct copy {
	const char *path;
	int folder;             /* it, as long as the copy goes on */
	int files[FILES];
	const char *names[FILES]; /* how each is called; NULL where it was not made */
	int why;                /* the system's reason for the first call that failed; 0: none did */
	uint64_t bytes;         /* so many were written to it */
	int (*progress)(void *with, uint64_t bytes); /* whom this is told; or NULL */
	void *with;
	unsigned long fail_at, kill_at; /* in tests, as those of the device */
};

/* The files, and the call that is asked for. */
struct device {
	int files[FILES];
	int is_read_only;       /* none of them is written */
	struct stat folder;     /* theirs */
	struct copy *copy;      /* NULL where none is under way */
	struct device_call question;
	int is_written;         /* the bytes of a write are still to come */
	int is_answered;        /* the answer was read; the bytes of a read come after it */
	uint64_t number;        /* the answer */
	atomic_int why;         /* the system's reason for the first call that failed */
	uint64_t syncs, page_reads, page_writes, log_bytes; /* as in vah_info */
	uint64_t read_bytes;    /* by the opening, of all files */
	uint64_t told_bytes;    /* the last that its caller was told of */
	int (*progress)(void *with, uint64_t bytes); /* whom it tells; NULL once it is over */
	void *with;
	int is_stopped;         /* its caller gave it up: each call fails */
	unsigned long fail_at;  /* in tests: this call fails, and each after it; 0: none does */
	unsigned long kill_at;  /* in tests: within this call the process is killed; 0: none */
	unsigned long slow;     /* in tests: how many microseconds longer a sync takes */
};

/* Opens the files of a folder, and locks them; where they are only read with others who only read. A code; `text` then says why. */
int vah_device_open(struct device *device, const char *path, char *text, size_t size);

/* How many pages the file of pages has; 0 where the system does not tell it. It is no call that the store asks for. */
uint64_t vah_device_pages(const struct device *device);

/* Of a copy, parts.c: makes the files in a folder that is empty, or that it makes, and does not lie in the store's; syncs them; gives them the names of a store, when
 * all of it is written; says why it was given up; and takes those away that it made. A code; `text` then says why. */
int vah_device_make_copy(struct copy *copy, const struct stat *store, char *text, size_t size);
int vah_device_sync_copy(struct copy *copy, char *text, size_t size);
int vah_device_name_copy(struct copy *copy, char *text, size_t size);
int vah_device_refuse_copy(struct copy *copy, char *text, size_t size);
void vah_device_take_copy_away(struct copy *copy);
void vah_device_close_copy(struct copy *copy);

/* Lets go of the files and of their lock; and, in a child, of the files alone, whose lock is the parent's. */
void vah_device_close(struct device *device);
void vah_device_leave(struct device *device);

/* Cuts the logs of the store, which was closed in order: the one that it has left to its first batch, the current one, where it has no record, to its end. A code. Where that fails
 * nothing is lost, and `why` says what failed. */
int vah_device_cut_logs(struct device *device);

/* Before a step: the device that this thread's next calls are for. The proved library asks, and is answered, by a pair of descriptors; whatever
 * their numbers are, these two stand for `write` and `read` in it (Makefile), and make the call that it asks for. */
void vah_device_serve(struct device *device);
ssize_t vah_device_write(int fd, const void *from, size_t len);
ssize_t vah_device_read(int fd, void *to, size_t len);

#ifdef VAH_TEST
/* In tests: how many syncs were asked for, of all stores; and that this insert from now on, and this change that is to be taken back, finds no memory, where
 * it is not 0. */
extern atomic_ulong vah_test_syncs;
extern unsigned long vah_test_refused_insert, vah_test_refused_continue;
#endif

/* ---- a store, and the places of its transactions ---- */

enum { PLACES = 64, SHELLS = 4096 };

/* What a call takes back of a transaction. */
enum { NOTHING, PART, ALL };

/* The place of a transaction. It is used under the store's lock; what is atomic is also read without it, by who looks for a deadlock. */
struct place {
	struct going *going;    /* its row in the table of those that are active */
	uint64_t serial;        /* which transaction has it, or had it: a part of its name */
	int is_taken;
	int is_committing;      /* its call waits for a force, and no other call has to do with it */
	int taken_back;         /* what its call takes back of it, with which no other call has to do meanwhile */
	int is_to_end;          /* while it was taken back, to begin again or in part, another thread asked for its end */
	int is_returning;       /* it has more changes than are to stand: nothing else is asked of it before the others are taken back */
	uint64_t changes;       /* how many of its changes stand, or are to stand */
	int is_own_victim;      /* it gave way, and none but its own thread's transactions were older */
	unsigned flags;
	uint64_t wait_ms;
	uint64_t had;           /* its number before it gave way */
	uint64_t from;          /* when it began to wait to begin again */
	unsigned sleeping;      /* calls of it that sleep until a lock is free */
	struct call *answer;    /* of its scans in place */
};

/* A store that is open, or its shell, which is kept for a later one: whoever calls by an old name finds memory that says so. */
struct store {
	uint64_t index;         /* of the shell */
	atomic_ullong serial;   /* which store has it, or had it: a part of its name */
	atomic_int is_open;
	atomic_uint forks;      /* how many forks lay above the process that opened it */
	int is_lent;            /* a store is open in it, or is being opened; under the lock of all shells */

	pthread_mutex_t lock;
	atomic_uint awake;      /* callers that are in the library and do not sleep */
	atomic_ullong turns;    /* how often the lock was taken */
	pthread_cond_t ended;   /* a transaction ended, or the store failed */
	unsigned waiting;       /* for that */
	pthread_cond_t room;    /* a place is free, or nobody is first any more */
	unsigned queueing;      /* for that */
	unsigned placeless;     /* those of them that wait for a place */
	pthread_cond_t forced;  /* the log was forced, the store failed, or one of those that wait is to force it */
	unsigned committing;    /* commits that wait for a force */
	unsigned asleep;        /* those of them that sleep, and were not woken */
	unsigned called;        /* that were woken one by one, and have not gone on */
	uint64_t woken;         /* how often all were woken at once */
	unsigned since;         /* steps since the first of them began to wait */
	uint64_t closings;      /* how often a close was refused: each sends the sleepers back */
	int is_copied;          /* a thread makes a copy of it */
	int has_failed;

	struct place places[PLACES];
	struct going going[PLACES];
	unsigned taken;         /* of them */
	struct place *first;    /* nobody else begins before this one has ended */
	uint64_t tick;          /* rises ten times a second at most, while somebody waits to begin, or asks to */
	uint64_t tick_ns;       /* when it rose */

	int is_read_only;
	uint64_t wait_ms;
	uint64_t forces, waits, restarts; /* as in vah_info */
	struct handle *handle;
	char *path;
	struct call *call;
	struct device device;
};

/* ---- codes: codes.c ---- */

/* What a call was answered, as callers keep it after the next question. */
struct told { uint32_t word, fault; uint64_t number; };

/* Where the words of this thread's last refusal go. */
char *error_text(size_t *size);

/* Says why a call was refused; its code. Of a store it is said under its lock. */
int fail(struct store *s, int code);

/* Ends a call: says why it was refused, and lets go of the lock. */
int leave_with(struct store *s, int code);

/* The code of an answer; and whether the store has failed by it, or had before. */
int told_code(const struct told *told);
int breaks(const struct told *told);

/* ---- steps: steps.c ---- */

/* What is asked of the store. */
struct question { uint32_t what, limit; uint64_t number; const void *key; size_t key_len; const void *hi; size_t hi_len; };

/* Has the proved library read a call, and answer it. */
void step(struct store *s, struct call *call);

/* Makes a step of the transaction in a place, or of the store where that is NULL, once. The answer's bytes are in `call`. */
struct told ask_in(struct store *s, struct call *call, struct place *p, const struct question *q);

/* The same in the store's own call: a question of the transaction in a place, one that is a word alone, and one of the store. */
struct told ask(struct store *s, struct place *p, const struct question *q);
struct told ask_what(struct store *s, struct place *p, uint32_t what);
struct told ask_store(struct store *s, uint32_t what);

/* What becomes of a commit that waits for a force. Where the store fails before that, it is not known whether it is kept. */
struct told force_for_all(struct store *s);

/* ---- transactions: txns.c ---- */

/* Its number in the engine; 0 where it has not begun, or gave way. */
static inline uint64_t txn_number(const struct place *p) { return atomic_load_explicit(&p->going->number, memory_order_relaxed); }

/* Whether a transaction gave way, and has not begun again. */
static inline int is_over(const struct place *p) { return !txn_number(p); }

/* Asks that so many changes stand. Where more do, one is taken back by each CONTINUE, and then it is returning. */
struct told begin_return(struct store *s, struct place *p, uint64_t left);

/* Takes back what is left of a return, one change at a time, between which others' calls come. A code. Where there is no memory for one it is returning
 * still; where another thread asked for its end meanwhile, it has ended. */
int finish_return(struct store *s, struct place *p);

/* ---- names: names.c ---- */

/* A shell for a store that is to be opened; NULL with a code where there is none. */
struct store *lend_shell(int *code);

/* Gives it back. In a child after fork it is left as it is, since its lock may be held by nobody for ever. */
void give_back(struct store *s);

/* The names of a store, and of the transaction in a place. */
vah_store *name_of_store(const struct store *s);
vah_txn *name_of_txn(const struct store *s, const struct place *p);

/* Finds what a name tells, and takes the store's lock where it returns VAH_OK. */
int enter_store(const vah_store *name, struct store **s);
int enter_txn(const vah_txn *name, struct store **s, struct place **p);

/* The same for who is to end it: where another thread takes it back, it is not begun again. */
int enter_txn_to_end(const vah_txn *name, struct store **s, struct place **p);

/* A store that was opened before a fork, in the child: it is closed by who is told 1. */
int leave_to_parent(const vah_store *name, struct store **s);

/* ---- the lock, and who waits: turns.c ---- */

/* Takes the lock, and lets go of it; and lets go of it until those who wait for it have had it. */
void enter(struct store *s);
void done(struct store *s);
void let_others_in(struct store *s);

/* The number of the thread that calls. */
uint64_t this_thread(void);

/* How long a call may wait, and since when it does. */
struct wait { uint64_t limit_ms, until, closings; int is_begun; };

/* Waits until a transaction may begin, in a place that is free where `p` is NULL, and else again in that one. */
int wait_to_begin(struct store *s, struct place *p, unsigned flags, struct wait *w);

/* Waits until a transaction that holds a lock, of this number, has ended. */
int wait_for_lock(struct store *s, struct place *p, uint64_t holder, struct wait *w);

/* Sleeps among the commits that wait for a force; and wakes them all. */
void sleep_for_force(struct store *s);
void wake_for_force(struct store *s);
int is_force_due(struct store *s);

/* Notes that a transaction gave way: whether it can have been to another thread's, and that it is first no more. */
void note_victim(struct store *s, struct place *p);

/* Gives a transaction a place, and takes it back. */
struct place *take_place(struct store *s, unsigned flags, uint64_t wait_ms, uint64_t number);
void free_place(struct store *s, struct place *p);

/* Wakes whoever waits for a transaction's end; and sends back all that sleep, but for commits. */
void wake_for_end(struct store *s);
void send_back(struct store *s);

/* For who makes a child. */
void hold_sleepers(void);
void let_go_of_sleepers(int is_child);

/* Whether the thread has a transaction active. */
int has_own(const struct store *s);

#endif
