/* A store: how it is opened and closed, and what is asked of it as a whole. */
#define _GNU_SOURCE
#include "internal.h"
#include <errno.h>
#include <stdlib.h>
#include <string.h>

/* No version's structures are larger. */
enum { LARGEST = 4096 };

/* Whether a config is of this size in some version: they grew at the end. */
static int is_config_size(size_t size)
{
	return size == offsetof(vah_config, log_bytes) || size == offsetof(vah_config, wait_ms) || size == offsetof(vah_config, read_only)
		|| size == offsetof(vah_config, cache_bytes) || (size >= sizeof(vah_config) && size <= LARGEST);
}

/* The fields of a config that this version knows, over the defaults. */
static int read_config(const vah_config *given, vah_config *config)
{
	*config = (vah_config)VAH_CONFIG_INIT;
	if (!given)
		return VAH_OK;
	if (!is_config_size(given->size))
		return VAH_INVALID;
	for (size_t i = sizeof *config; i < given->size; i++)
		if (((const uint8_t *)given)[i])
			return VAH_INVALID; /* a later version's field that is not left at 0 */
	memcpy(config, given, given->size < sizeof *config ? given->size : sizeof *config);
	return config->read_only <= 1 ? VAH_OK : VAH_INVALID;
}

/* Frees what a store has while it is open. Its shell stays. */
static void empty_shell(struct store *s)
{
	for (int i = 0; i < PLACES; i++) {
		free(s->places[i].answer);
		s->places[i].answer = NULL;
	}
	free(s->handle);
	free(s->path);
	free(s->call);
	s->handle = NULL;
	s->path = NULL;
	s->call = NULL;
}

/* Fills a shell with what a store has while it is open. Nobody else has to do with it before its name is given. */
static int fill_shell(struct store *s, const char *path, const vah_config *config)
{
	s->has_failed = 0;
	s->forces = s->waits = s->restarts = 0;
	s->wait_ms = config->wait_ms;
	s->is_copied = 0;
	s->is_read_only = (int)config->read_only;
	s->device = (struct device){ .progress = config->progress, .with = config->with, .is_read_only = s->is_read_only };
#ifdef VAH_TEST
	s->device.fail_at = getenv("VAH_FAIL_AT") ? strtoul(getenv("VAH_FAIL_AT"), NULL, 10) : 0;
	s->device.kill_at = getenv("VAH_KILL_AT") ? strtoul(getenv("VAH_KILL_AT"), NULL, 10) : 0;
	if (getenv("VAH_REFUSE_INSERT"))
		vah_test_refused_insert = strtoul(getenv("VAH_REFUSE_INSERT"), NULL, 10);
	if (getenv("VAH_REFUSE_CONTINUE"))
		vah_test_refused_continue = strtoul(getenv("VAH_REFUSE_CONTINUE"), NULL, 10);
	s->device.slow = getenv("VAH_SLOW_SYNC") ? strtoul(getenv("VAH_SLOW_SYNC"), NULL, 10) : 0;
#endif
	s->path = strdup(path);
	s->call = malloc(sizeof *s->call);
	s->handle = malloc(im_size());
	return s->path && s->call && s->handle ? VAH_OK : fail(NULL, VAH_MEMORY);
}

/* How many bytes a frame takes, and over how many pages of the file the default is as much as 64 MiB. */
enum { FRAME_BYTES = 4096, MOST_PAGES = 8192 };

/* How many frames more the pool is to have: as many as take so many bytes, or by default twice as many as the file has pages, as imstore does it. The proved
 * library refuses more than there may be. */
static uint64_t more_frames(const struct store *s, const vah_config *config)
{
	if (config->cache_bytes != VAH_CACHE_FITS)
		return config->cache_bytes / FRAME_BYTES;
	uint64_t pages = vah_device_pages(&s->device);
	return 2 * (pages < MOST_PAGES ? pages : MOST_PAGES);
}

/* Opens the store over the files that are open. */
static int open_session(struct store *s, const vah_config *config)
{
	struct store_opening asked = { .read_only = (uint32_t)config->read_only, .group = 1 /* commits wait for a force */, .frames = config->frames,
		.more = more_frames(s, config), .max_pages = config->max_pages, .redo_bytes = config->redo_bytes, .log_bytes = config->log_bytes };
	im_init(s->handle);
	vah_device_serve(&s->device);
	im_open(s->handle, &asked);
	s->device.progress = NULL;
	if (!s->device.is_stopped)
		return fail(s, (int)asked.fault);
	if (!asked.fault) { /* by the last call, when the store is open: as each call of its device fails, it is left as a kill would leave it */
		s->call->step = CLOSE;
		step(s, s->call);
	}
	return fail(s, VAH_STOPPED);
}

/* Opens the files, and the store over them. */
static int open_in(struct store *s, const char *path, const vah_config *config)
{
	size_t size;
	char *text = error_text(&size);
	int code = fill_shell(s, path, config);
	if (code || (code = vah_device_open(&s->device, path, text, size)))
		return code;
	if ((code = open_session(s, config))) {
		int why = errno;
		vah_device_close(&s->device);
		errno = why;
	}
	return code;
}

int vah_open(const char *path, const vah_config *config, vah_store **store)
{
	vah_config read;
	struct store *s;
	int code;
	if (!path || !store || read_config(config, &read))
		return fail(NULL, VAH_INVALID);
	if (!(s = lend_shell(&code)))
		return fail(NULL, code);
	if ((code = open_in(s, path, &read))) {
		int why = errno;
		empty_shell(s);
		give_back(s);
		errno = why;
		return code;
	}
	enter(s);
	atomic_fetch_add(&s->serial, 1);
	atomic_store(&s->is_open, 1);
	*store = name_of_store(s);
	done(s);
	return VAH_OK;
}

/* Closes the store itself; the lock is held. */
static int close_session(struct store *s)
{
	s->call->step = CLOSE;
	step(s, s->call);
	int code = s->call->word == REFUSED ? (int)s->call->fault : VAH_OK;
	if (!code && !s->is_read_only)
		code = vah_device_cut_logs(&s->device);
	vah_device_close(&s->device);
	fail(s, code);
	int why = errno;
	atomic_store(&s->is_open, 0);
	empty_shell(s);
	errno = why;
	return code;
}

/* In a child: lets go of what it has of the parent's store, whose shell stays as it is, since its lock may be held for ever. */
static int close_parents(const vah_store *name)
{
	struct store *s;
	if (!leave_to_parent(name, &s))
		return fail(NULL, VAH_CLOSED);
	vah_device_leave(&s->device);
	empty_shell(s);
	return fail(NULL, VAH_FORKED);
}

int vah_close(vah_store *store)
{
	struct store *s;
	int code;
	if (!store)
		return VAH_OK;
	if ((code = enter_store(store, &s)))
		return code == VAH_FORKED ? close_parents(store) : fail(NULL, code);
	if (s->taken || s->waiting || s->queueing || s->is_copied) {
		send_back(s);
		return leave_with(s, VAH_ACTIVE);
	}
	code = close_session(s);
	int why = errno;
	done(s);
	give_back(s);
	errno = why;
	return code;
}

static int of_store(vah_store *store, uint32_t what)
{
	struct store *s;
	int code = enter_store(store, &s);
	if (code)
		return fail(NULL, code);
	if (s->is_read_only)
		return leave_with(s, VAH_READ_ONLY);
	struct told told = ask_store(s, what);
	return leave_with(s, told_code(&told));
}

int vah_checkpoint(vah_store *store) { return of_store(store, CHECKPOINT); }

int vah_flush(vah_store *store) { return of_store(store, FORCE); }

int vah_switch(vah_store *store) { return of_store(store, SWITCH); }

/* Puts the numbers of the first version together with those of this layer. */
static int stat_in(struct store *s, vah_info *info)
{
	struct told told = ask_store(s, STAT);
	if (told_code(&told))
		return told_code(&told);
	memcpy(info, s->call->out, offsetof(vah_info, restarts));
	info->has_failed |= (uint64_t)s->has_failed;
	info->restarts = s->restarts;
	info->waits = s->waits;
	info->forces = s->forces;
	info->syncs = s->device.syncs;
	info->page_reads = s->device.page_reads;
	info->page_writes = s->device.page_writes;
	info->log_bytes = s->device.log_bytes;
	return VAH_OK;
}

int vah_stat_with(vah_store *store, vah_info *info, size_t size)
{
	struct store *s;
	vah_info now;
	int code = info && size >= offsetof(vah_info, restarts) && size <= LARGEST ? enter_store(store, &s) : VAH_INVALID;
	if (code)
		return fail(NULL, code);
	if (!(code = stat_in(s, &now))) {
		memset(info, 0, size);
		memcpy(info, &now, size < sizeof now ? size : sizeof now);
	}
	return leave_with(s, code);
}

/* What programs call that were built with the first header. */
#undef vah_stat
int vah_stat(vah_store *store, vah_info *info);
int vah_stat(vah_store *store, vah_info *info) { return vah_stat_with(store, info, offsetof(vah_info, restarts)); }
