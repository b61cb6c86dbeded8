/* Codes, and what they say. */
#define _GNU_SOURCE
#include "internal.h"
#include <errno.h>
#include <stdio.h>
#include <string.h>

enum { STORE_BUSY = 15 }; /* the refusal of a switch while a transaction is active */

static _Thread_local char text[512];

char *error_text(size_t *size)
{
	*size = sizeof text;
	return text;
}

const char *vah_last_error(void) { return text; }

int vah_version(void) { return VAH_VERSION; }

const char *vah_strerror(int code)
{
	switch (code) {
	case VAH_OK: return "success";
	case VAH_NO_TRANSACTION: return "the transaction has ended";
	case VAH_MUST_ROLL_BACK: return "the transaction must roll back";
	case VAH_KEY_LENGTH: return "a key has 1 to 255 bytes";
	case VAH_ROLLING_BACK: return "the transaction is rolling back";
	case VAH_PAGES_FULL: return "no page is left";
	case VAH_CAPACITY: return "numbers are used up";
	case VAH_LOG_FULL: return "the log is full";
	case VAH_DEVICE: return "a call of the system failed";
	case VAH_MEMORY: return "out of memory";
	case VAH_FAILED: return "the store has failed: close it, and open it again";
	case VAH_NOT_A_STORE: return "the files hold no store";
	case VAH_TOO_MANY: return "64 transactions are active, or 4,096 stores are open";
	case VAH_POOL_SIZE: return "frames are not 8 to 1,024, or cache_bytes more than 1,020 MiB";
	case VAH_LOCKED: return "the store is open elsewhere";
	case VAH_NOT_FOUND: return "the key is not there";
	case VAH_EXISTS: return "the key is there already";
	case VAH_GIVE_WAY: return "an older transaction stands in the way: roll back, and begin again";
	case VAH_BUSY: return "another transaction holds what is needed, and was not waited for any longer";
	case VAH_INVALID: return "an argument is not allowed";
	case VAH_ACTIVE: return "transactions are active, or a thread sleeps in a call";
	case VAH_FORKED: return "the store was opened by the process that this one was forked from";
	case VAH_DEADLOCK: return "the thread would wait for itself, or for one that waits for it";
	case VAH_STOPPED: return "the opening, the copy or the load was given up by its caller";
	case VAH_CLOSED: return "the store was closed";
	case VAH_READ_ONLY: return "the store was opened to be read only";
	case VAH_NOT_EMPTY: return "the folder of a copy or a load is not empty";
	case VAH_NOT_COPIED: return "a call of the system on the files of a copy failed";
	case VAH_NOT_RISING: return "a key is not above the one before it";
	default: return "no code of vahondrisa";
	}
}

int fail(struct store *s, int code)
{
	char room[128];
	int why = s ? atomic_load(&s->device.why) : 0;
	const char *path = s && s->path ? s->path : "vahondrisa";
	if (code == VAH_OK || code == VAH_NOT_FOUND || code == VAH_EXISTS)
		return code;
	if (why && (code == VAH_DEVICE || code == VAH_FAILED))
		snprintf(text, sizeof text, "%s: %s (%s)", path, vah_strerror(code), strerror_r(why, room, sizeof room));
	else
		snprintf(text, sizeof text, "%s: %s", path, vah_strerror(code));
	if (code == VAH_DEVICE || code == VAH_FAILED)
		errno = why;
	return code;
}

int leave_with(struct store *s, int code)
{
	fail(s, code);
	done(s);
	return code;
}

int told_code(const struct told *told)
{
	switch (told->word) {
	case ABSENT: case END: return VAH_NOT_FOUND;
	case DUPLICATE: return VAH_EXISTS;
	case DIE: return VAH_GIVE_WAY;
	case BLOCKED: case BLOCKED_TREE: return VAH_BUSY;
	case REFUSED: return told->fault == STORE_BUSY ? VAH_ACTIVE : (int)told->fault;
	default: return VAH_OK;
	}
}

int breaks(const struct told *told)
{
	return told->word == REFUSED && (told->fault == VAH_CAPACITY || told->fault == VAH_LOG_FULL || told->fault == VAH_DEVICE
		|| told->fault == VAH_FAILED || told->fault == VAH_NOT_A_STORE);
}
