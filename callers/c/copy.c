/* A copy of a store that is in use: its files are made, filled by pieces between the steps of others, and named. */
#define _GNU_SOURCE
#include "internal.h"
#include <errno.h>
#include <stdio.h>
#include <stdlib.h>

/* So many pieces are copied while the lock is held: 256 KiB. */
enum { PIECES = 4 };

#ifdef VAH_TEST
/* In tests, what is called as a copy ends, before it is asked whether it is whole. */
void (*vah_test_at_copy_end)(void);
#endif

/* A refusal in words of its own. */
static int refuse(const struct store *s, int code, const char *words)
{
	size_t size;
	char *text = error_text(&size);
	snprintf(text, size, "%s: %s", s->path, words);
	return code;
}

/* What an answer about the copy comes to: where the copy was let go, one of its calls has failed. */
static int code_of(struct store *s, const struct told *told, struct copy *copy)
{
	size_t size;
	char *text = error_text(&size);
	if (told->word == ABSENT)
		return vah_device_refuse_copy(copy, text, size);
	return told->word == REFUSED ? fail(s, told_code(told)) : VAH_OK;
}

/* Copies pieces, while the lock is held: up to the end where it is `all`. Whether nothing is left is told. */
static int copy_pieces(struct store *s, struct copy *copy, int all, int *is_over)
{
	struct told told = { MORE, 0, 0 };
	for (int i = 0; told.word == MORE && (all || i < PIECES); i++)
		told = ask_store(s, COPY_PIECE);
	*is_over = told.word == END;
	return code_of(s, &told, copy);
}

/* Tells how much is copied, without the lock, as what is called may be any code. Whether that gives the copy up. */
static int is_given_up(struct store *s, const struct copy *copy)
{
	if (!copy->progress)
		return 0;
	uint64_t bytes = copy->bytes;
	done(s);
	int stops = copy->progress(copy->with, bytes);
	enter(s);
	return stops;
}

/* Copies until nothing is left, and lets others go on in between. */
static int copy_most(struct store *s, struct copy *copy)
{
	uint64_t closings = s->closings;
	int is_over = 0, code = VAH_OK;
	while (!is_over && !(code = copy_pieces(s, copy, 0, &is_over))) {
		if (is_given_up(s, copy))
			return refuse(s, VAH_STOPPED, "the copy was given up by its caller");
		if (!is_over)
			let_others_in(s);
		if (s->closings != closings)
			return refuse(s, VAH_BUSY, "the copy was given up, as the store is to be closed");
	}
	return code;
}

/* What was written meanwhile went to the copy too, so that little is left now, and little is to be synced. */
static int copy_rest(struct store *s, struct copy *copy)
{
	int is_over, code = copy_pieces(s, copy, 1, &is_over);
	if (code)
		return code;
#ifdef VAH_TEST
	if (vah_test_at_copy_end)
		vah_test_at_copy_end();
#endif
	struct told told = ask_store(s, COPY_END);
	return code_of(s, &told, copy);
}

/* Fills the files of the copy. What it has is what the store's files have at the end. */
static int fill(struct store *s, struct copy *copy)
{
	size_t size;
	char *text = error_text(&size);
	enter(s);
	s->device.copy = copy;
	struct told told = ask_store(s, COPY_BEGIN);
	int code = code_of(s, &told, copy);
	if (!code)
		code = copy_most(s, copy);
	if (!code) {
		done(s);
		code = vah_device_sync_copy(copy, text, size); /* which takes long, and beside it others go on */
		int why = errno;
		enter(s);
		errno = why;
	}
	if (!code)
		code = copy_rest(s, copy);
	s->device.copy = NULL; /* where it was given up its files have no descriptor any more, and so the proved library lets go of it */
	int why = errno;
	done(s);
	errno = why;
	return code;
}

/* Makes the files of a copy, fills them, and names them; or takes them away. */
static int make_copy(struct store *s, const char *folder, int (*progress)(void *with, uint64_t bytes), void *with)
{
	struct copy copy = { .path = folder, .progress = progress, .with = with };
	size_t size;
	char *text = error_text(&size);
#ifdef VAH_TEST
	copy.fail_at = getenv("VAH_COPY_FAIL_AT") ? strtoul(getenv("VAH_COPY_FAIL_AT"), NULL, 10) : 0;
	copy.kill_at = getenv("VAH_COPY_KILL_AT") ? strtoul(getenv("VAH_COPY_KILL_AT"), NULL, 10) : 0;
#endif
	int code = vah_device_make_copy(&copy, &s->device.folder, text, size);
	if (code)
		return code;
	if (!(code = fill(s, &copy)))
		code = vah_device_name_copy(&copy, text, size);
	int why = errno;
	if (code)
		vah_device_take_copy_away(&copy);
	vah_device_close_copy(&copy);
	errno = why;
	return code;
}

int vah_copy(vah_store *store, const char *folder) { return vah_copy_with(store, folder, NULL, NULL); }

int vah_copy_with(vah_store *store, const char *folder, int (*progress)(void *with, uint64_t bytes), void *with)
{
	struct store *s;
	int code = folder ? enter_store(store, &s) : VAH_INVALID;
	if (code)
		return fail(NULL, code);
	if (s->is_copied) {
		refuse(s, VAH_BUSY, "another copy of it is under way");
		done(s);
		return VAH_BUSY;
	}
	s->is_copied = 1; /* from now on it is not closed */
	done(s);
	code = make_copy(s, folder, progress, with);
	int why = errno;
	enter(s);
	s->is_copied = 0;
	done(s);
	errno = why;
	return code;
}
