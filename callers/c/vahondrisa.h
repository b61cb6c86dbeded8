/** @file vahondrisa.h
 *
 *  A persistent ordered index with transactions, in a folder, inside your
 *  program. Keys are 1 to 255 bytes, each with a row id ("rid") of 64 bits, and
 *  no two keys are equal. Keys are ordered by their unsigned bytes, a prefix of
 *  a key before the key. What a transaction did is there whole or not at all
 *  after a kill, a crash or a power cut, and is there if its commit returned 0.
 *
 *	@section start	Getting started
 *
 *	vah_store *store;
 *	vah_txn *txn;
 *	uint64_t rid;
 *	int rc = vah_open("keys", NULL, &store);
 *	if (rc) { fprintf(stderr, "%s\n", vah_last_error()); exit(1); }
 *	rc = vah_begin(store, &txn);
 *	if (!rc) rc = vah_put(txn, "apple", 5, 7, NULL, NULL);
 *	if (!rc) rc = vah_fetch(txn, "apple", 5, &rid);
 *	rc = rc ? vah_rollback(txn) : vah_commit(txn);
 *	vah_close(store);
 *
 *  A transaction may see VAH_GIVE_WAY from any of its calls by a key: an older
 *  one stands in its way. Call vah_again then, and make all of its calls again.
 *  However many threads do so, each of them gets its turn: see vah_again.
 *
 *	@section promises	What is proved, and what is not
 *
 *  The store below these functions is proved: each call answers what one
 *  caller alone would be answered in some order of the commits, and a stop at
 *  any moment leaves each transaction whole or absent. The functions of this
 *  header are C over the exports of the proved library, and are tested. They
 *  hold one lock around each call, and keep the duties that the proofs ask of a
 *  caller in C. Do not write past the memory that you hand in.
 *
 *	@section handles	Stores and transactions as handles
 *
 *  A `vah_store *` and a `vah_txn *` are names, which the library looks up, and
 *  not addresses of memory. A call with one that has ended, or that is none, is
 *  refused: VAH_NO_TRANSACTION where the transaction has ended, VAH_CLOSED where
 *  the store was closed, VAH_INVALID where it is NULL or no handle of its kind.
 *  That holds for ever: a name is not given twice.
 *
 *	@section threads	Threads
 *
 *  Any thread may call any function on one store; calls wait for one another.
 *  One transaction belongs to one thread at a time: calls that several threads
 *  make of it are taken one after another, and where one of them ends it the
 *  others are refused. Up to 64 transactions are active at once, and who begins
 *  one more waits. A call waits while a younger transaction holds what it needs
 *  (an older one never waits for it: see VAH_GIVE_WAY). How long it waits at most
 *  is said by vah_config.wait_ms, vah_begin_within and vah_set_wait; then, and
 *  where another thread calls vah_close, it is answered VAH_BUSY, and the
 *  transaction is as it was. Where a thread would wait for itself, as it has
 *  two transactions, or for a thread that waits for it, in whatever store, it is
 *  refused VAH_DEADLOCK at once. The thread of a transaction is the one that sleeps
 *  in a call of it, or else made its last call.
 *  Commits of several threads share the syncs of the disk: a commit waits while
 *  other threads are within calls, for 256 of their calls at most.
 *  A handler of a signal that comes while a call is under way returns, as one
 *  that leaves by longjmp would leave the call half done, as pthread_cancel of a
 *  thread within a call would, and it calls no function of this header.
 *  A store is not to be used in a child after fork(): its calls are refused there
 *  VAH_FORKED, and vah_close lets go of what the child has of it.
 *
 *	@section long	Long transactions
 *
 *  A transaction costs others while it is active. Its locks keep them from its keys,
 *  and from what it has read, absent keys and ranges too: the older ones wait, the
 *  younger ones give way. Each key that it reads or changes is a lock in memory until
 *  it ends. The log cannot be left for an empty one, so that it grows by all that is
 *  logged meanwhile, past vah_config.log_bytes; an opening after a crash reads all of
 *  it, and takes the transaction back. vah_rollback takes back one change at a time.
 *  So end transactions soon. A load commits each thousand keys or so; who reads the
 *  whole store reads it in parts, or reads a copy (vah_copy).
 *
 *	@section files	Files
 *
 *  A store is a folder with the files `log`, `log2` and `pages`. It is open once
 *  at a time: a second opening, here or elsewhere, is refused VAH_LOCKED. Those
 *  that only read (vah_config.read_only) may be any number, and are one to all
 *  others. Files are read alike on each machine. Never delete, copy or put back
 *  one of the three alone: vah_copy makes a copy of a store in use. A child that
 *  outlives the program without exec holds the lock on.
 */
#ifndef VAHONDRISA_H
#define VAHONDRISA_H

#include <stddef.h>
#include <stdint.h>

#ifdef __cplusplus
extern "C" {
#endif

/** The version of this header: major * 10000 + minor * 100 + patch. */
#define VAH_VERSION 100

/** The longest key, in bytes. */
#define VAH_KEY_MAX 255

/** The most entries of one scan. */
#define VAH_SCAN_MAX 256

/** The name of a store that is open. */
typedef struct vah_store vah_store;
/** The name of a transaction that is active. */
typedef struct vah_txn vah_txn;

/** A key with its row id, copied. */
typedef struct vah_entry {
	uint64_t rid;             /**< the row id */
	uint8_t len;              /**< 1 to 255 */
	uint8_t key[VAH_KEY_MAX]; /**< its first `len` bytes */
} vah_entry;

/** A key with its row id, where it lies in an answer. */
typedef struct vah_ref {
	const uint8_t *key;       /**< good until the transaction's next vah_scan_refs,
	                           *   and until it has ended */
	size_t len;               /**< 1 to 255 */
	uint64_t rid;             /**< the row id */
} vah_ref;

/** How a store is opened. Begin with VAH_CONFIG_INIT, so that fields of later
 *  versions have their defaults. */
typedef struct vah_config {
	size_t size;              /**< sizeof(vah_config) */
	uint32_t frames;          /**< pages of 4 KiB kept in memory, 8 to 1024, and more
	                           *   as cache_bytes says */
	uint32_t max_pages;       /**< the most pages of the store */
	uint64_t redo_bytes;      /**< the most log that an opening has to redo; 0: any */
	uint64_t log_bytes;       /**< the most log that an opening has to read, where
	                           *   now and then nothing is active; 0: any */
	uint64_t wait_ms;         /**< the most milliseconds that a call waits for other
	                           *   transactions; 0: any */
	int (*progress)(void *with, uint64_t bytes); /**< told of the bytes that the
	                           *   opening has read so far, now and then, by the
	                           *   thread that opens; it calls no function of this
	                           *   header. Where it returns another number than 0
	                           *   the opening is given up: VAH_STOPPED. Or NULL */
	void *with;               /**< its first argument */
	uint64_t read_only;       /**< 1: the files are only read. What the opening redoes
	                           *   and takes back stays in memory, and no byte of them
	                           *   is changed; what would change a key is refused
	                           *   VAH_READ_ONLY. Any number may look at a store at a
	                           *   time. It must be there. Or 0 */
	uint64_t cache_bytes;     /**< memory for more pages, beside `frames`: whole frames
	                           *   of 4 KiB, up to 1,020 MiB. All of it is asked for
	                           *   when the store is opened, and used as pages come */
} vah_config;

/** For redo_bytes, and the default: 16 MiB, or 7 times the bytes of the file of
 *  pages, whichever is more. */
#define VAH_REDO_GROWS UINT64_MAX
/** For log_bytes, and the default: 64 MiB, or 8 times the bytes of the file of
 *  pages, whichever is more. */
#define VAH_LOG_GROWS UINT64_MAX
/** For cache_bytes, and the default: twice the bytes that the file of pages has at the
 *  opening, at most 64 MiB. */
#define VAH_CACHE_FITS UINT64_MAX
#define VAH_CONFIG_INIT { sizeof(vah_config), 1024, 1000000, VAH_REDO_GROWS, VAH_LOG_GROWS, 0, NULL, NULL, 0, VAH_CACHE_FITS }

/** What vah_stat tells. The numbers from `restarts` on count from the opening. */
typedef struct vah_info {
	uint64_t active;          /**< transactions */
	uint64_t dirty_pages;     /**< pages whose file lacks changes */
	uint64_t durable_end;     /**< the log is on the disk up to here */
	uint64_t redo_from;       /**< where the opening began to redo the log; 0 where
	                           *   the log had no record */
	uint64_t redone;          /**< how many records it applied */
	uint64_t has_failed;      /**< 1: only vah_close is of use */
	uint64_t restarts;        /**< transactions that began again, by vah_again */
	uint64_t waits;           /**< calls that slept until other transactions ended */
	uint64_t forces;          /**< forces of the log that commits and flushes asked */
	uint64_t syncs;           /**< syncs of a file */
	uint64_t page_reads;      /**< reads of the file of pages */
	uint64_t page_writes;     /**< writes of the file of pages */
	uint64_t log_bytes;       /**< bytes written to the logs */
} vah_info;

/** @defgroup codes	What calls return
 *  0 is success. Each code keeps its number for ever.
 *  @{ */
#define VAH_OK 0
/** The key is not there; a seek, a next, a prev or a last found none. Nothing
 *  was changed. */
#define VAH_NOT_FOUND 100
/** The key is there already. Nothing was changed. */
#define VAH_EXISTS 101
/** An older transaction stands in the way. Only vah_again, vah_rollback and
 *  vah_roll_to are taken now. */
#define VAH_GIVE_WAY 102
/** A younger transaction holds what is needed, and under VAH_NO_WAIT it is not
 *  waited for; or it was waited for as long as is allowed; or another thread
 *  called vah_close meanwhile. Nothing was changed, and the transaction goes on:
 *  call again, or roll back. */
#define VAH_BUSY 103
/** An argument is NULL or no handle, or a flag or a size is not known: the call
 *  has to be mended. Nothing was changed. */
#define VAH_INVALID 104
/** Transactions of the store are active, or another thread sleeps in a call of
 *  it, or copies it: it was not closed, or not switched. End them, and call again. */
#define VAH_ACTIVE 105
/** The store was opened by the process that this one was forked from: open it after
 *  the fork, in one of them. */
#define VAH_FORKED 106
/** The call would wait for a transaction of this very thread, or for a thread
 *  that waits for this one. Nothing was changed, and the transaction goes on:
 *  end one of them. */
#define VAH_DEADLOCK 107
/** vah_config.progress gave the opening up, that of a copy the copy, or the callback
 *  of a load the load. The store is as it was, and there is no copy. */
#define VAH_STOPPED 108
/** The store was closed: open it again. */
#define VAH_CLOSED 109
/** The store was opened to be read only. Nothing was changed: open it without
 *  read_only, once nobody else looks at it. */
#define VAH_READ_ONLY 110
/** The folder of a copy or a load has something in it, or that of a copy lies in the
 *  store's own: name another. */
#define VAH_NOT_EMPTY 111
/** A call of the system on the folder or the files of a copy failed, as errno says.
 *  The store goes on: copy again, into another folder, where there is room. There is
 *  no copy, or half of one, which no opening takes. Where it was the very last call
 *  that failed, a sync, there is a whole one; but a power cut may leave less of it. */
#define VAH_NOT_COPIED 112
/** A key of a load is not above the one before it: sort them, or insert them. */
#define VAH_NOT_RISING 113
/* The refusals of the store, by the numbers that its programs print. */
/** The transaction has ended: begin another. */
#define VAH_NO_TRANSACTION 1
/** A call of the transaction was answered VAH_GIVE_WAY: vah_again, or vah_rollback. */
#define VAH_MUST_ROLL_BACK 2
/** A key has 1 to 255 bytes: shorten it, or keep it elsewhere, by its row id. */
#define VAH_KEY_LENGTH 3
/** Another thread takes the transaction back at this moment: begin another; or takes
 *  a part of it back, by vah_roll_to: call again. */
#define VAH_ROLLING_BACK 4
/** vah_config.max_pages are in use: open the store with more, or delete keys. */
#define VAH_PAGES_FULL 5
/** Numbers are used up; the store has failed: dump it, and load a new one. */
#define VAH_CAPACITY 6
/** The log is full, at 2^62 bytes of all that was ever logged; the store has
 *  failed: dump it, and load a new one. */
#define VAH_LOG_FULL 7
/** A call of the system failed, and so has the store: see to the disk (errno has
 *  the reason), close, and open again. What was committed is there; of a commit
 *  that was answered so, look whether it is. */
#define VAH_DEVICE 8
/** Out of memory. Nothing was changed: call again, roll back, or open the store
 *  with less for its cache. */
#define VAH_MEMORY 9
/** An earlier call failed: close, and open again. */
#define VAH_FAILED 10
/** The files are of no store, or are damaged: `imstore --check` names what is
 *  broken. Bring all three back from a copy. */
#define VAH_NOT_A_STORE 11
/** 64 transactions are active, or 4,096 stores are open: end one. */
#define VAH_TOO_MANY 12
/** frames are not 8 to 1024, or cache_bytes above 1,020 MiB: name others. */
#define VAH_POOL_SIZE 13
/** The store is open elsewhere: close it there. A program that was killed has let
 *  go of it; to look beside one that reads, open it read_only too. */
#define VAH_LOCKED 19
/** @} */

/** What a code means, in words. Never NULL; not to be freed. */
const char *vah_strerror(int code);

/** What the last call of this thread that was refused said, with the folder's
 *  name and the system's reason where there is one. VAH_NOT_FOUND and
 *  VAH_EXISTS are answers, and leave it as it is. Never NULL; good until the
 *  next call of this thread. After VAH_DEVICE, VAH_FAILED and VAH_NOT_COPIED errno
 *  is the system's reason, or 0 where it is not known. */
const char *vah_last_error(void);

/** The version of the library, as VAH_VERSION. */
int vah_version(void);

/** The release and what was built of it: "0.1.0 proved", or "0.1.0 unproved" by
 *  a library that `make UNPROVED=1` made, for a first look. */
const char *vah_build(void);

/** Open the store in a folder, or make one; the folder is made too, and those
 *  above it. What was committed is there, and what was not is taken back.
 *  @param[in] path the folder
 *  @param[in] config NULL for the defaults
 *  @param[out] store set on success alone
 *  @return VAH_LOCKED, VAH_NOT_A_STORE, VAH_POOL_SIZE, VAH_DEVICE, VAH_MEMORY,
 *  VAH_STOPPED, VAH_TOO_MANY */
int vah_open(const char *path, const vah_config *config, vah_store **store);

/** Make a store in a folder of entries whose keys rise, without a log: each page is
 *  written once, and full. The store has just these entries, on the disk, when 0 is
 *  returned; else there is none. An opening of the folder meanwhile, or after a kill,
 *  is refused VAH_NOT_A_STORE.
 *  @param[in] path one that is empty, or is to be made
 *  @param[in] next hands the next entries: it sets up to VAH_SCAN_MAX of them, whose
 *  keys stay until it is called again, and returns how many; 0 at the end, and -1 to
 *  give the load up. It may work with other stores
 *  @param[in] with its first argument
 *  @return VAH_NOT_RISING, VAH_KEY_LENGTH, VAH_STOPPED, VAH_NOT_EMPTY, VAH_DEVICE,
 *  VAH_MEMORY, VAH_CAPACITY */
int vah_load(const char *path, int (*next)(void *with, vah_ref *entries), void *with);

/** Load the entries of a store that nobody writes meanwhile into a folder, where
 *  they take as few pages as they can. Of one in use make a copy first (vah_copy).
 *  @param[in] path the store, which is only read
 *  @param[in] folder one that is empty, or is to be made
 *  @return as vah_open, to read only, and as vah_load */
int vah_compact(const char *path, const char *folder);

/** Write all pages, leave a long log for an empty one or take a checkpoint, cut
 *  what of the logs nothing reads any more, and end the store. What was committed
 *  is kept whatever this returns, and the store has ended on each code but
 *  VAH_ACTIVE. NULL is taken.
 *  On VAH_ACTIVE those that sleep in a call of the store, but for commits, are
 *  woken, and answered VAH_BUSY, and so is a vah_copy: so end the transactions, and
 *  close again.
 *  @return VAH_ACTIVE, VAH_CLOSED, VAH_DEVICE, VAH_FAILED, VAH_FORKED */
int vah_close(vah_store *store);

/** Begin a transaction, as soon as fewer than 64 are active and nobody that
 *  begins again has precedence (see vah_again).
 *  @param[in] flags VAH_NO_WAIT, or 0
 *  @return VAH_BUSY, VAH_DEADLOCK, VAH_CAPACITY, VAH_FAILED; under VAH_NO_WAIT
 *  VAH_TOO_MANY, and VAH_BUSY where somebody has precedence */
int vah_begin_with(vah_store *store, unsigned flags, vah_txn **txn);
/** No call of the transaction waits for another one. */
#define VAH_NO_WAIT 1u
#define vah_begin(store, txn) vah_begin_with(store, 0, txn)

/** Begin a transaction whose calls, and this one, wait for other transactions
 *  so many milliseconds at most, in place of vah_config.wait_ms; 0: any. */
int vah_begin_within(vah_store *store, unsigned flags, uint64_t wait_ms, vah_txn **txn);

/** From the next call of the transaction on, let each wait for other
 *  transactions so many milliseconds at most; 0: any. Short waits that are made
 *  again on VAH_BUSY let the caller look for an interrupt in between. */
int vah_set_wait(vah_txn *txn, uint64_t wait_ms);

/** Make all that the transaction did durable, and end it. On VAH_DEVICE it is
 *  not known whether it is kept: open the store again to see. The transaction
 *  has ended except on VAH_MUST_ROLL_BACK, VAH_ROLLING_BACK and VAH_MEMORY. */
int vah_commit(vah_txn *txn);

/** After VAH_GIVE_WAY: take back all that the transaction did, wait until each
 *  older one has ended, and begin again, by the same handle. Who has begun again
 *  four times has precedence: nobody begins until it has ended, and it gives way
 *  no more. Transactions of the same thread, and those that have made no step
 *  for a tenth of a second, are not waited for, and lose precedence.
 *  Under VAH_NO_WAIT it does not wait.
 *  On VAH_BUSY, and on VAH_DEADLOCK where it gave way to another transaction of
 *  its thread, which has to end first, what it did is taken back, and it has not
 *  begun again: call this again, or vah_rollback; its other calls are refused
 *  VAH_MUST_ROLL_BACK. On any other code but 0 the transaction has ended, or another
 *  thread takes it back at this moment (VAH_ROLLING_BACK). */
int vah_again(vah_txn *txn);

/** Take back all that the transaction did, and end it. Changes are taken back
 *  one at a time, and other threads' calls come in between; those of the same
 *  transaction are refused. A call of it that sleeps in another thread is woken,
 *  and told VAH_NO_TRANSACTION. The transaction has ended whatever this returns,
 *  but for VAH_ROLLING_BACK, where another thread is about to. NULL is taken. */
int vah_rollback(vah_txn *txn);

/** Note where the transaction stands, for vah_roll_to. It asks nothing of the store,
 *  and nothing has to be let go of.
 *  @param[out] save how many changes it has made that stand: one for each vah_insert
 *  and vah_delete that returned 0, two for a vah_put that replaced a row id by another */
int vah_savepoint(vah_txn *txn, uint64_t *save);

/** Take back the newest changes of the transaction until `save` are left; where it
 *  has no more, nothing. It goes on, and keeps all of its locks. Other threads' calls
 *  come in between; those of the same transaction are refused VAH_ROLLING_BACK.
 *  After VAH_GIVE_WAY it goes on too, with what stands, to commit that or to take
 *  another key. The same key is told VAH_GIVE_WAY again until the older one has ended,
 *  which may wait for a lock of this one: who needs that key calls vah_again.
 *  @param[in] save of vah_savepoint. It is a number alone: after a return to an earlier
 *  savepoint, and other changes, it stands for these
 *  @return VAH_MEMORY: some changes are left, and the next call of the transaction,
 *  whichever it is, takes them back first. VAH_NO_TRANSACTION, VAH_DEVICE, .. */
int vah_roll_to(vah_txn *txn, uint64_t save);

/** The row id of a key.
 *  @param[out] rid may be NULL
 *  @return VAH_NOT_FOUND, VAH_GIVE_WAY, .. */
int vah_fetch(vah_txn *txn, const void *key, size_t len, uint64_t *rid);

/** Put a key in that is not there. @return VAH_EXISTS, VAH_GIVE_WAY,
 *  VAH_PAGES_FULL, .. */
int vah_insert(vah_txn *txn, const void *key, size_t len, uint64_t rid);

/** Put a key in, or give one that is there another row id. On VAH_BUSY,
 *  VAH_DEADLOCK, VAH_PAGES_FULL and VAH_MEMORY nothing was changed.
 *  @param[out] was_there 1 where the key was there, and else 0; may be NULL
 *  @param[out] previous its row id before, where it was there; may be NULL
 *  @return VAH_GIVE_WAY, VAH_PAGES_FULL, .. */
int vah_put(vah_txn *txn, const void *key, size_t len, uint64_t rid, int *was_there, uint64_t *previous);

/** Take a key out. @return VAH_NOT_FOUND, VAH_GIVE_WAY, .. */
int vah_delete(vah_txn *txn, const void *key, size_t len);

/** The first entry from a key on. @return VAH_NOT_FOUND past the last, .. */
int vah_seek(vah_txn *txn, const void *key, size_t len, vah_entry *entry);

/** The first entry after a key. @return VAH_NOT_FOUND past the last, .. */
int vah_next(vah_txn *txn, const void *key, size_t len, vah_entry *entry);

/** The last entry before a key. @return VAH_NOT_FOUND before the first, .. */
int vah_prev(vah_txn *txn, const void *key, size_t len, vah_entry *entry);

/** The last entry of all. @return VAH_NOT_FOUND where there is none, .. */
int vah_last(vah_txn *txn, vah_entry *entry);

/** The entries from one key to another, both included, in order.
 *  @param[out] entries room for `max` of them
 *  @param[in] max 1 to 256; more is taken as 256
 *  @param[out] count how many there are; fewer than `max` are all */
int vah_scan(vah_txn *txn, const void *lo, size_t lo_len, const void *hi,
	size_t hi_len, vah_entry *entries, size_t max, size_t *count);

/** As vah_scan, without a copy of the keys: each of `refs` says where its key
 *  lies, until the transaction's next vah_scan_refs, and until it has ended. */
int vah_scan_refs(vah_txn *txn, const void *lo, size_t lo_len, const void *hi,
	size_t hi_len, vah_ref *refs, size_t max, size_t *count);

/** Bound what the next opening has to redo. Taken by itself as
 *  config.redo_bytes asks. */
int vah_checkpoint(vah_store *store);

/** Write all pages, and go on in the other log, which is empty: the next opening
 *  reads nothing of this one. Made by itself as config.log_bytes asks, at a
 *  moment when no transaction is active. Where threads leave no such moment, the
 *  log grows on: make one, now and then, and call this.
 *  @return VAH_ACTIVE where a transaction is active: nothing was done */
int vah_switch(vah_store *store);

/** Make all records so far durable, those of active transactions too. */
int vah_flush(vah_store *store);

/** Copy the store into a folder, while other threads go on: they wait for 256 KiB
 *  at a time at most. The copy is a store. It has what a stop at its end might have
 *  left: each commit that has returned 0 by then, of the others some, and each of
 *  them whole. When 0 is returned it is on the disk.
 *  @param[in] folder one that is empty, or is to be made, on any disk, and not in the
 *  store's own. Until the copy is whole its files have other names, and an opening of the folder is refused
 *  VAH_NOT_A_STORE; where it fails they are taken away
 *  @return VAH_NOT_EMPTY, VAH_NOT_COPIED, VAH_MEMORY; VAH_BUSY where another copy of
 *  the store is under way, or another thread called vah_close meanwhile; VAH_DEVICE
 *  and VAH_FAILED where the store itself failed */
int vah_copy(vah_store *store, const char *folder);

/** As vah_copy, and `progress` is told how many bytes are copied so far, once for
 *  some 256 KiB, by the thread that copies, while others go on; but while the files
 *  are synced it is told nothing.
 *  @param[in] progress where it returns another number than 0 the copy is given up,
 *  VAH_STOPPED, and its files are taken away. It may call what others may call
 *  meanwhile. Or NULL
 *  @param[in] with its first argument */
int vah_copy_with(vah_store *store, const char *folder, int (*progress)(void *with, uint64_t bytes),
	void *with);

/** Write a key of a name: of an index, or of a set of long values, each with keys
 *  of its own, as docs/GUIDE.md lays them out. It asks nothing of a store.
 *  @param[in] which VAH_NAME_ROW and so on
 *  @param[in] name 1 to 31 bytes
 *  @param[in] key the key that the index has, or the long value
 *  @param[out] to room for VAH_KEY_MAX bytes
 *  @return VAH_KEY_LENGTH where it does not fit, VAH_INVALID */
int vah_name_key(unsigned which, const void *name, size_t name_len, const void *key,
	size_t key_len, uint8_t *to, size_t *to_len);
/** The name's key in the catalogue: its row id is 1 for an index, 2 for long values. */
#define VAH_NAME_ROW 0u
/** What lies above all keys of a name, and of no name above the catalogue. */
#define VAH_NAME_GUARD 1u
/** An entry of an index. */
#define VAH_NAME_ENTRY 2u
/** Where the entries begin whose keys begin with `key`, and where they end; of no
 *  name, the catalogue. */
#define VAH_NAME_FIRST 3u
#define VAH_NAME_LAST 4u
/** Where the parts of a long value begin, which is what all of them begin with,
 *  and where they end. */
#define VAH_NAME_PARTS 5u
#define VAH_NAME_PARTS_END 6u

/** Write the key of a part of a long value, and its row id.
 *  @param[in] key its first `front` bytes are what vah_name_key has written for
 *  VAH_NAME_PARTS; room for VAH_KEY_MAX bytes
 *  @param[in] number from 0 on; a value of no byte has one part
 *  @return VAH_NOT_FOUND after the last part, VAH_INVALID where there are too many */
int vah_long_part(uint8_t *key, size_t front, const void *value, size_t size,
	uint32_t number, size_t *key_len, uint64_t *rid);

/** How far a long value is read: begin with 0 in all of it. */
typedef struct vah_reading {
	uint64_t left;            /**< how many of its bytes are in later parts */
	uint32_t number;          /**< how many parts were taken */
	uint8_t is_half;          /**< 1: one was not the next part */
} vah_reading;

/** Take the next entry of a long value's range. What the part has of the value
 *  begins `front` + 3 bytes into its key. At the range's end the value is whole where
 *  `left` is 0, and was not there where `number` is.
 *  @return VAH_INVALID where it is not the next part: half a value is there */
int vah_long_read(vah_reading *reading, size_t front, const void *key, size_t len, uint64_t rid);

/** The key of the long value whose part this is.
 *  @param[out] key room for VAH_KEY_MAX bytes
 *  @param[out] front what all parts of the value begin with
 *  @return VAH_INVALID where it is no part */
int vah_long_key(const void *part, size_t len, uint8_t *key, size_t *key_len, size_t *front);

/** Tell how the store stands.
 *  @param[in] size sizeof(vah_info): a later version's numbers are left out */
int vah_stat_with(vah_store *store, vah_info *info, size_t size);
#define vah_stat(store, info) vah_stat_with(store, info, sizeof(vah_info))

#ifdef __cplusplus
}
#endif
#endif
