/* A store that is made of entries in rising order, without a log: its files have the names of half a copy until all of it is written. */
#define _GNU_SOURCE
#include "internal.h"
#include <errno.h>
#include <stdio.h>
#include <stdlib.h>
#include <string.h>

/* What a load has of a store: the proved library's part, a call to it, and a device with the files of a copy alone. */
struct load {
	struct handle *handle;
	struct call *call;
	struct device device;
	struct copy copy;
};

/* A refusal in words of its own. */
static int refuse(const struct load *l, int code, const char *words)
{
	size_t size;
	char *text = error_text(&size);
	snprintf(text, size, "%s: %s", l->copy.path, words);
	return code;
}

/* Asks the proved library. What was called in between may have worked with other stores. */
static struct told ask_load(struct load *l, uint32_t what)
{
	l->call->step = what;
	vah_device_serve(&l->device);
	im_step(l->handle, l->call);
	return (struct told){ l->call->word, l->call->fault, l->call->number };
}

/* A call of the system on the files of the load failed: there is no store that goes on, as there is one beside a copy. */
static int of_load(int code) { return code == VAH_NOT_COPIED ? VAH_DEVICE : code; }

static int code_of(struct load *l, const struct told *told)
{
	size_t size;
	char *text = error_text(&size);
	if (told->word == DUPLICATE)
		return refuse(l, VAH_NOT_RISING, vah_strerror(VAH_NOT_RISING));
	if (told->word != REFUSED)
		return VAH_OK;
	if (told->fault == VAH_DEVICE)
		return of_load(vah_device_refuse_copy(&l->copy, text, size));
	return refuse(l, (int)told->fault, vah_strerror((int)told->fault));
}

static int put_entry(struct load *l, const vah_ref *entry)
{
	struct call *call = l->call;
	if (entry->len && !entry->key)
		return refuse(l, VAH_INVALID, vah_strerror(VAH_INVALID));
	call->key_len = entry->len > sizeof call->key ? sizeof call->key : (uint32_t)entry->len;
	if (call->key_len)
		memcpy(call->key, entry->key, call->key_len);
	call->number = entry->rid;
	struct told told = ask_load(l, LOAD_PUT);
	return code_of(l, &told);
}

/* Puts all entries that are handed. */
static int put_all(struct load *l, int (*next)(void *with, vah_ref *entries), void *with)
{
	vah_ref entries[VAH_SCAN_MAX];
	int count, code = VAH_OK;
	do {
		count = next(with, entries);
		if (count < 0 || count > VAH_SCAN_MAX)
			return refuse(l, VAH_STOPPED, "the load was given up by its caller");
		for (int i = 0; i < count && !code; i++)
			code = put_entry(l, &entries[i]);
	} while (count && !code);
	return code;
}

/* Fills the files, and brings them to the disk. */
static int fill(struct load *l, int (*next)(void *with, vah_ref *entries), void *with)
{
	size_t size;
	char *text = error_text(&size);
	im_init(l->handle);
	l->device.copy = &l->copy;
	l->call->key_len = l->call->hi_len = 0; /* descriptors: any, as at an opening */
	struct told told = ask_load(l, LOAD_BEGIN);
	int code = code_of(l, &told);
	if (!code)
		code = put_all(l, next, with);
	if (!code) {
		told = ask_load(l, LOAD_END);
		code = code_of(l, &told);
	}
	if (!code)
		code = of_load(vah_device_sync_copy(&l->copy, text, size));
	int why = errno;
	ask_load(l, CLOSE); /* one that was given up is let go */
	errno = why;
	return code;
}

/* Makes the files, fills them, and names them; or takes them away. */
static int make_load(struct load *l, int (*next)(void *with, vah_ref *entries), void *with)
{
	static const struct stat none; /* the folder of no store */
	size_t size;
	char *text = error_text(&size);
	int code = of_load(vah_device_make_copy(&l->copy, &none, text, size));
	if (code)
		return code;
	if (!(code = fill(l, next, with)))
		code = of_load(vah_device_name_copy(&l->copy, text, size));
	int why = errno;
	if (code)
		vah_device_take_copy_away(&l->copy);
	vah_device_close_copy(&l->copy);
	errno = why;
	return code;
}

int vah_load(const char *path, int (*next)(void *with, vah_ref *entries), void *with)
{
	if (!path || !next)
		return fail(NULL, VAH_INVALID);
	struct load *l = calloc(1, sizeof *l);
	if (!l)
		return fail(NULL, VAH_MEMORY);
	l->copy.path = path;
#ifdef VAH_TEST
	l->copy.fail_at = getenv("VAH_COPY_FAIL_AT") ? strtoul(getenv("VAH_COPY_FAIL_AT"), NULL, 10) : 0;
	l->copy.kill_at = getenv("VAH_COPY_KILL_AT") ? strtoul(getenv("VAH_COPY_KILL_AT"), NULL, 10) : 0;
#endif
	l->call = malloc(sizeof *l->call);
	l->handle = malloc(im_size());
	int code = l->call && l->handle ? make_load(l, next, with) : fail(NULL, VAH_MEMORY);
	int why = errno;
	free(l->call);
	free(l->handle);
	free(l);
	errno = why;
	return code;
}
