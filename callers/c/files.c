/* The files of a store, and the calls of the system that it asks for. Whether the files of a folder belong together is decided by what FileDisk asks too
 * (crates/im_files_belonging), which is proved: here they are opened, locked, read and synced. The two are tested on one list,
 * examples/programs/imstore_guards_files. */
#define _GNU_SOURCE
#include "files.h"
#include <errno.h>
#include <fcntl.h>
#include <limits.h>
#include <signal.h>
#include <stdbool.h>
#include <stdio.h>
#include <stdlib.h>
#include <string.h>
#include <sys/file.h>
#include <sys/stat.h>
#include <unistd.h>

/* ---- calls that are made whole ---- */

/* Reads or writes all bytes at a place of a file; the end of the file is a failure. */
static int whole_at(int fd, int writes, uint8_t *bytes, size_t len, off_t at)
{
	while (len) {
		ssize_t n = writes ? pwrite(fd, bytes, len, at) : pread(fd, bytes, len, at);
		if (n == 0)
			errno = EIO;
		if (n == 0 || (n < 0 && errno != EINTR))
			return -1;
		if (n > 0) {
			bytes += n;
			at += n;
			len -= (size_t)n;
		}
	}
	return 0;
}

/* ---- what the store asks for: crates/im_files_caller_disk ---- */

enum { LEN = 1, READ, WRITE, SYNC };

#ifdef VAH_TEST
atomic_ulong vah_test_syncs;

/* Counts a call: within one of these numbers the process is killed, and the other and each after it fails. */
static int is_counted_out(unsigned long *fail_at, unsigned long *kill_at)
{
	static pthread_mutex_t counting = PTHREAD_MUTEX_INITIALIZER; /* the files of a copy are synced while others write them */
	pthread_mutex_lock(&counting);
	if (*kill_at && !--*kill_at)
		raise(SIGKILL);
	int fails = *fail_at && !--*fail_at;
	*fail_at += (unsigned long)fails;
	pthread_mutex_unlock(&counting);
	if (fails)
		errno = EIO;
	return fails;
}
#endif

/* In tests, whether this call is to fail. */
static int is_to_fail(struct device *device)
{
#ifdef VAH_TEST
	if (device->question.kind == SYNC) {
		atomic_fetch_add(&vah_test_syncs, 1);
		usleep((useconds_t)device->slow);
	}
	return is_counted_out(&device->fail_at, &device->kill_at);
#else
	(void)device;
	return 0;
#endif
}

int is_copy_to_fail(struct copy *copy)
{
#ifdef VAH_TEST
	return copy && is_counted_out(&copy->fail_at, &copy->kill_at);
#else
	(void)copy;
	return 0;
#endif
}

/* Whether a call is for a file of the copy that is under way, or of one that was given up. */
static int is_of_copy(const struct device_call *q) { return q->file >= FILES; }

static int descriptor_of(const struct device *device, uint32_t file)
{
	if (file < FILES)
		return device->files[file];
	return device->copy && file < 2 * FILES ? device->copy->files[file - FILES] : -1;
}

/* Notes the system's reason for the first call that failed, of the store or of its copy. */
static void note(struct device *device)
{
	int none = 0;
	if (!is_of_copy(&device->question))
		atomic_compare_exchange_strong(&device->why, &none, errno);
	else if (device->copy && !device->copy->why)
		device->copy->why = errno;
}

/* Writes all bytes. A file that may not grow raises a signal, which this thread must not end by: it is taken back. */
static int write_whole(int fd, const void *bytes, size_t len, off_t at)
{
	sigset_t too_large, old, pending;
	sigemptyset(&too_large);
	sigaddset(&too_large, SIGXFSZ);
	pthread_sigmask(SIG_BLOCK, &too_large, &old);
	int failed = whole_at(fd, 1, (uint8_t *)(uintptr_t)bytes, len, at), why = errno;
	if (failed && !sigpending(&pending) && sigismember(&pending, SIGXFSZ))
		sigtimedwait(&too_large, NULL, &(struct timespec){ 0, 0 });
	pthread_sigmask(SIG_SETMASK, &old, NULL);
	errno = why;
	return failed;
}

/* Counts a call for vah_stat. */
static void count(struct device *device)
{
	const struct device_call *q = &device->question;
	int is_of_pages = q->file == PAGES;
	if (is_of_copy(q)) {
		if (device->copy && q->kind == WRITE)
			device->copy->bytes += q->len;
		return;
	}
	device->syncs += q->kind == SYNC;
	device->page_reads += is_of_pages && q->kind == READ;
	device->page_writes += is_of_pages && q->kind == WRITE;
	device->log_bytes += !is_of_pages && q->kind == WRITE ? q->len : 0;
}

/* Makes the call that is asked, with the bytes of a write, and keeps its answer. The bytes of a read are read behind it, into their place. */
static void make(struct device *device, const void *bytes)
{
	const struct device_call *q = &device->question;
	int fd = descriptor_of(device, q->file), failed = is_of_copy(q) ? is_copy_to_fail(device->copy) : is_to_fail(device);
	int is_absent = device->is_read_only && fd < 0; /* a file that is read as one without bytes */
	struct stat st = { 0 };
	if (device->is_stopped) {
		failed = 1;
		errno = ECANCELED;
	}
	switch (q->kind) {
	case LEN: failed = failed || (!is_absent && fstat(fd, &st)); break;
	case READ: break;
	case WRITE: failed = failed || write_whole(fd, bytes, q->len, (off_t)q->place); break;
	default: failed = failed || fdatasync(fd); break;
	}
	count(device);
	if (failed)
		note(device);
	device->number = failed ? UINT64_MAX : (uint64_t)st.st_size;
}

/* The device of the store that this thread makes a step of. */
static _Thread_local struct device *serving;

void vah_device_serve(struct device *device) { serving = device; }

/* So many bytes are read between two words about an opening. */
enum { TOLD_EACH = 1 << 18 };

/* Tells who waits for an opening how much it has read. What is called may be any code, which may work with another store meanwhile. */
static void tell_progress(struct device *device, size_t len)
{
	device->read_bytes += len;
	if (!device->progress || device->read_bytes - device->told_bytes < TOLD_EACH)
		return;
	device->told_bytes = device->read_bytes;
	device->is_stopped |= device->progress(device->with, device->read_bytes) != 0;
	serving = device;
}

/* What the proved library calls in the place of write: a question, and the bytes of a write. */
ssize_t vah_device_write(int fd, const void *from, size_t len)
{
	struct device *device = serving;
	(void)fd;
	if (device->is_written) {
		if (len != device->question.len)
			return -1;
		device->is_written = 0;
		make(device, from);
		return (ssize_t)len;
	}
	if (len != sizeof device->question)
		return -1;
	memcpy(&device->question, from, len);
	device->is_answered = 0;
	device->is_written = device->question.kind == WRITE && device->question.len;
	if (!device->is_written)
		make(device, from);
	return (ssize_t)len;
}

/* What the proved library calls in the place of read: an answer, and the bytes of a read, which are as many as were asked for. */
ssize_t vah_device_read(int fd, void *to, size_t len)
{
	struct device *device = serving;
	const struct device_call *q = &device->question;
	(void)fd;
	if (!device->is_answered) {
		if (len != sizeof device->number)
			return -1;
		memcpy(to, &device->number, len);
		device->is_answered = 1;
		return (ssize_t)len;
	}
	if (len != q->len)
		return -1;
	if (whole_at(descriptor_of(device, q->file), 0, to, len, (off_t)q->place)) {
		note(device);
		return -1;
	}
	tell_progress(device, len);
	return (ssize_t)len;
}

/* ---- the opening ---- */

enum { PAGE_SIZE = 4096 };

int refuse_files(struct opening *o, int code, const char *words)
{
	snprintf(o->text, o->size, "%s: %s", o->path, words);
	o->code = code;
	return -1;
}

int refuse_system(struct opening *o)
{
	char room[128], words[256];
	int error = errno;
	const char *why = strerror_r(error, room, sizeof room);
	o->why = error;
	switch (error) {
	case ENOMEM: return refuse_files(o, VAH_MEMORY, "out of memory");
	case ENOTDIR: case EEXIST: return refuse_files(o, VAH_DEVICE, "it is no folder, or lies under something that is none");
	case ENOENT: snprintf(words, sizeof words, "there is no such folder, and it cannot be made: %s", why); break;
	case EACCES: snprintf(words, sizeof words, "the system does not allow it: %s", why); break;
	default: snprintf(words, sizeof words, "%s", why); break;
	}
	return refuse_files(o, VAH_DEVICE, words);
}

int make_folders(struct opening *o, char *path)
{
	struct stat st;
	for (char *at = path + 1; ; at++) {
		if (*at != '/' && *at)
			continue;
		char kept = *at;
		*at = 0;
		int failed = mkdir(path, 0777) && errno != EEXIST && (kept == 0 || stat(path, &st));
		*at = kept;
		if (failed)
			return refuse_system(o);
		if (!kept)
			break;
	}
	if (stat(path, &st))
		return refuse_system(o);
	if (!S_ISDIR(st.st_mode)) {
		errno = ENOTDIR;
		return refuse_system(o);
	}
	return 0;
}

/* Those that may not be read this program has not made. */
int sync_folders(struct opening *o, char *path)
{
	for (size_t len = strlen(path); ; ) {
		const char *name = len ? path : ".";
		int fd = open(name, O_RDONLY | O_DIRECTORY | O_CLOEXEC);
		if (fd < 0 && errno != EACCES)
			return refuse_system(o);
		int failed = fd >= 0 && fsync(fd), why = errno;
		if (fd >= 0)
			close(fd);
		errno = why;
		if (failed)
			return refuse_system(o);
		if (!len || (len == 1 && *path == '/'))
			return 0;
		while (len && path[len - 1] != '/')
			len--;
		while (len > 1 && path[len - 1] == '/')
			len--;
		if (len == 1 && *path != '/')
			len = 0;
		path[len] = 0;
	}
}

/* Whether the folder has a plain file of this name; -1 where the name is taken by something else. */
static int has_file(struct opening *o, const char *name)
{
	char words[64], *path;
	struct stat st;
	if (asprintf(&path, "%s/%s", o->path, name) < 0)
		return refuse_files(o, VAH_MEMORY, "out of memory");
	int is_there = !stat(path, &st), why = errno;
	free(path);
	errno = why;
	if (!is_there)
		return errno == ENOENT ? 0 : refuse_system(o);
	if (S_ISREG(st.st_mode))
		return 1;
	snprintf(words, sizeof words, "`%s` in it is no plain file", name);
	return refuse_files(o, VAH_NOT_A_STORE, words);
}

int not_standard(struct opening *o, int fd)
{
	if (fd < 0)
		return refuse_system(o);
	if (fd > STDERR_FILENO)
		return fd;
	close(fd);
	return refuse_files(o, VAH_DEVICE, "no descriptor is left but those of the standard streams");
}

/* Opens a file of the folder; -1 where it is refused. */
static int open_file(struct opening *o, const char *name)
{
	char *path;
	if (asprintf(&path, "%s/%s", o->path, name) < 0)
		return refuse_files(o, VAH_MEMORY, "out of memory");
	int fd = open(path, o->flags | O_CLOEXEC | O_NOCTTY, 0666), why = errno;
	free(path);
	errno = why;
	return not_standard(o, fd);
}

/* What is read of the files of a folder, as crates/im_files_belonging has it (src/folder.rt): how long each is, its first bytes, zeros where it has no more, and
 * whether it is there. Of `pages` no byte is read where it has no whole page. And whether there is a `log.part`. */
struct log_front { uint64_t len; uint8_t bytes[65]; bool is_there; };
struct pages_front { uint64_t len; uint8_t bytes[28]; bool is_there; };
struct folder { struct log_front log, log2; struct pages_front pages; bool has_part; };

/* Whether they belong together: 0 where they do and no log was made, 1 where one was, and else why not, by a number. */
uint32_t im_belong(const struct folder *folder);

/* A walk over the log that was left, and then over the current one: the place of the next byte that is wanted, the page of the newest change of the first,
 * whether it is over and in which file (src/left_log.rt). */
struct left_log { uint64_t place, end, base, lsn, pages; uint32_t page; bool is_over, is_log2, is_current; };
void im_left_log(const struct folder *folder, struct left_log *left);
void im_left_go_on(const struct folder *folder, struct left_log *left);
void im_left_take(struct left_log *left, const uint8_t *piece, size_t len);
bool im_is_older(const struct left_log *left, uint64_t pages, uint64_t lsn);

/* What may be cut of the logs of a closed store: how many bytes stay of the one that was left, and how many may go; the same of the current one; and in which file the first
 * is (src/log_cuts.rt). */
struct log_cuts { uint64_t kept, gone, end, after; bool is_log2; };
void im_log_cuts(const struct folder *folder, struct log_cuts *cuts);

/* The number of a folder into which a copy was not finished. */
enum { UNFINISHED = 9 };

/* The words for these numbers. */
static const char *const why_apart[] = {
	[2] = "there is no `log` in it",
	[3] = "there is no `log2` in it: bring it back; if it was empty, as in a store that never switched, an empty file will do",
	[4] = "there is no `pages` in it beside a log that was made: the pages of the store are missing",
	[5] = "`pages` in it lacks pages that the store had when its log began",
	[6] = "`log` in it does not begin as the log of a store",
	[7] = "`log2` in it does not begin as the log of a store",
	[UNFINISHED] = "a copy or a load into it was not finished",
};

/* Reads the beginning of a file: as many bytes as there is room for, and none where it has fewer than so many. */
static int read_front(int fd, uint64_t *len, uint8_t *bytes, size_t room, uint64_t least)
{
	struct stat st;
	if (fstat(fd, &st))
		return -1;
	*len = (uint64_t)st.st_size;
	return *len < least ? 0 : whole_at(fd, 0, bytes, *len < room ? (size_t)*len : room, 0);
}

static int front_of(struct opening *o, int fd, uint64_t *len, uint8_t *bytes, size_t room, uint64_t least)
{
	return read_front(fd, len, bytes, room, least) ? refuse_system(o) : 0;
}

static int log_front_of(struct opening *o, int fd, struct log_front *front)
{
	front->is_there = fd >= 0;
	return front->is_there ? front_of(o, fd, &front->len, front->bytes, sizeof front->bytes, 0) : 0;
}

/* Opens a file that the folder has, and that was not opened yet. */
static int open_if_made(struct opening *o, int *fd, const char *name)
{
	int is_there = *fd >= 0 ? 0 : has_file(o, name);
	if (is_there > 0)
		*fd = open_file(o, name);
	return is_there < 0 || (is_there && *fd < 0) ? -1 : 0;
}

/* Walks to the end of the log. */
static int walk(struct opening *o, const int *files, const struct folder *folder, struct left_log *left)
{
	int fd = files[left->is_log2 ? LOG2 : LOG];
	uint64_t len = left->is_log2 ? folder->log2.len : folder->log.len;
	uint8_t *room = left->is_over ? NULL : malloc(TOLD_EACH);
	if (!left->is_over && !room)
		return refuse_files(o, VAH_MEMORY, "out of memory");
	for (uint64_t from = ~left->place; !left->is_over && left->place < len && left->place != from; ) {
		size_t size = len - left->place < TOLD_EACH ? (size_t)(len - left->place) : TOLD_EACH;
		from = left->place;
		if (whole_at(fd, 0, room, size, (off_t)from)) {
			free(room);
			return refuse_system(o);
		}
		im_left_take(left, room, size);
	}
	free(room);
	return 0;
}

/* Refused where the file of pages lacks the newest change of the log that was left, and the current one has no copy of its page. It stands for FileDisk's look_back. */
static int look_back(struct opening *o, const int *files, const struct folder *folder)
{
	struct left_log left;
	uint8_t bytes[8] = { 0 };
	uint64_t lsn = 0, pages = folder->pages.len / PAGE_SIZE;
	if (files[PAGES] < 0)
		return 0;
	im_left_log(folder, &left);
	if (walk(o, files, folder, &left))
		return -1;
	im_left_go_on(folder, &left);
	if (walk(o, files, folder, &left))
		return -1;
	if (left.page < pages && whole_at(files[PAGES], 0, bytes, sizeof bytes, (off_t)left.page * PAGE_SIZE))
		return refuse_system(o);
	for (size_t i = 0; i < sizeof bytes; i++)
		lsn = lsn << 8 | bytes[i];
	return im_is_older(&left, pages, lsn) ? refuse_files(o, VAH_NOT_A_STORE, "`pages` in it is older than its logs: it lacks the newest change from before the last switch") : 0;
}

/* Looks at the files that the folder has, and asks whether they belong together: 1 where a log was made, 0 where none was, -1 where they are refused.
 * Nothing is made, and nothing is written. It stands for FileDisk's look. */
static int look(struct opening *o, int *files)
{
	struct folder folder = { 0 };
	if (open_if_made(o, &files[LOG2], "log2") || open_if_made(o, &files[PAGES], "pages"))
		return -1;
	int has_part = has_file(o, "log.part");
	if (has_part < 0)
		return -1;
	folder.has_part = has_part;
	if (log_front_of(o, files[LOG], &folder.log) || log_front_of(o, files[LOG2], &folder.log2))
		return -1;
	folder.pages.is_there = files[PAGES] >= 0;
	if (folder.pages.is_there && front_of(o, files[PAGES], &folder.pages.len, folder.pages.bytes, sizeof folder.pages.bytes, PAGE_SIZE))
		return -1;
	uint32_t word = im_belong(&folder);
	if (word >= 2)
		return refuse_files(o, VAH_NOT_A_STORE, why_apart[word]);
	return look_back(o, files, &folder) ? -1 : (int)word;
}

/* Locks a store by its log. */
static int lock_log(struct opening *o, int fd, int how)
{
	if (!flock(fd, how | LOCK_NB))
		return 0;
	return errno == EWOULDBLOCK ? refuse_files(o, VAH_LOCKED, "the store is open elsewhere") : refuse_system(o);
}

/* Opens and looks at the files that the folder has, in the order of FileDisk::open_to_read. */
static int open_to_read(struct opening *o, int *files)
{
	static const char *const wanted[] = { "log", "pages" };
	char words[64];
	int has_part = has_file(o, "log.part");
	/* Until its end a copy lacks a log, which is not what a user has to be told of it. */
	if (has_part)
		return has_part < 0 ? -1 : refuse_files(o, VAH_NOT_A_STORE, why_apart[UNFINISHED]);
	for (int i = 0; i < 2; i++) {
		int is_there = has_file(o, wanted[i]);
		snprintf(words, sizeof words, "there is no `%s` in it", wanted[i]);
		if (is_there <= 0)
			return is_there < 0 ? -1 : refuse_files(o, VAH_NOT_A_STORE, words);
	}
	if ((files[LOG] = open_file(o, "log")) < 0 || lock_log(o, files[LOG], LOCK_SH))
		return -1;
	if (look(o, files) < 0)
		return -1;
	return files[PAGES] < 0 ? refuse_files(o, VAH_NOT_A_STORE, words) : 0;
}

/* Opens, locks, looks, makes and syncs, in the order of FileDisk::open. */
static int open_files(struct opening *o, int *files, int folder, char *path)
{
	int is_there = has_file(o, "log"), is_made;
	/* Where the others say that a store is here, no log is made. */
	if (is_there < 0 || (!is_there && look(o, files) < 0))
		return -1;
	if ((files[LOG] = open_file(o, "log")) < 0)
		return -1;
	if (lock_log(o, files[LOG], LOCK_EX))
		return -1;
	if ((is_made = look(o, files)) < 0)
		return -1;
	if (files[PAGES] < 0 && (files[PAGES] = open_file(o, "pages")) < 0)
		return -1;
	if (files[LOG2] < 0 && (files[LOG2] = open_file(o, "log2")) < 0)
		return -1;
	if (fsync(files[LOG]) || fsync(files[LOG2]) || fsync(files[PAGES]) || fsync(folder))
		return refuse_system(o);
	return is_made ? 0 : sync_folders(o, path);
}

int open_folders(struct opening *o, int *folders)
{
	for (int i = 0; i < 3; i++)
		if ((folders[i] = open(o->path, O_RDONLY | O_DIRECTORY | O_CLOEXEC)) < 0)
			return refuse_system(o);
	return 0;
}

void close_all(const int *files, int count)
{
	for (int i = 0; i < count; i++)
		if (files[i] >= 0)
			close(files[i]);
}

char *own_path(struct opening *o)
{
	char *path = strdup(o->path);
	if (!path)
		refuse_files(o, VAH_MEMORY, "out of memory");
	else if (!*path || strlen(path) >= PATH_MAX) { /* no folder of a path is made that the system does not take */
		errno = *path ? ENAMETOOLONG : ENOENT;
		refuse_system(o);
	}
	return path;
}

int vah_device_open(struct device *device, const char *path, char *text, size_t size)
{
	struct opening o = { path, device->is_read_only ? O_RDONLY : O_RDWR | O_CREAT, text, size, 0, 0 };
	int folders[3] = { -1, -1, -1 };
	char *own = own_path(&o);
	device->files[LOG] = device->files[PAGES] = device->files[LOG2] = -1;
	if (!o.code && (device->is_read_only || !make_folders(&o, own)) && !open_folders(&o, folders)) {
		if (fstat(folders[0], &device->folder))
			refuse_system(&o);
		else if (device->is_read_only)
			open_to_read(&o, device->files);
		else
			open_files(&o, device->files, folders[0], own);
	}
	close_all(folders, 3);
	free(own);
	if (o.code) {
		vah_device_close(device);
		errno = o.why;
	}
	return o.code;
}

void vah_device_close(struct device *device)
{
	if (device->files[LOG] >= 0)
		flock(device->files[LOG], LOCK_UN); /* for a child too, which has the same open file, as one has that is yet to exec */
	vah_device_leave(device);
}

void vah_device_leave(struct device *device)
{
	int all[] = { device->files[PAGES], device->files[LOG2], device->files[LOG] };
	for (size_t i = 0; i < sizeof all / sizeof *all; i++)
		if (all[i] >= 0)
			close(all[i]);
}

uint64_t vah_device_pages(const struct device *device)
{
	struct stat st;
	return device->files[PAGES] >= 0 && !fstat(device->files[PAGES], &st) ? (uint64_t)st.st_size / PAGE_SIZE : 0;
}

/* ---- the end: what stands for FileDisk's cut_logs ---- */

/* In tests, whether a call of a cut is to fail. */
static int is_cut_to_fail(struct device *device)
{
#ifdef VAH_TEST
	return is_counted_out(&device->fail_at, &device->kill_at);
#else
	(void)device;
	return 0;
#endif
}

static int cut_to(int fd, uint64_t len)
{
	int failed;
	do failed = ftruncate(fd, (off_t)len);
	while (failed && errno == EINTR);
	return failed;
}

/* Cuts a log to so many bytes, where any go. */
static int cut_log(struct device *device, int fd, uint64_t kept, uint64_t gone)
{
	return gone && (is_cut_to_fail(device) || cut_to(fd, kept) || is_cut_to_fail(device) || fsync(fd));
}

int vah_device_cut_logs(struct device *device)
{
	struct folder folder = { 0 };
	struct log_cuts cuts = { 0 };
	const int *files = device->files;
	struct log_front *log = &folder.log, *log2 = &folder.log2;
	struct pages_front *pages = &folder.pages;
	int none = 0;
	log->is_there = log2->is_there = pages->is_there = true;
	int failed = is_cut_to_fail(device) || read_front(files[LOG], &log->len, log->bytes, sizeof log->bytes, 0)
		|| is_cut_to_fail(device) || read_front(files[LOG2], &log2->len, log2->bytes, sizeof log2->bytes, 0)
		|| is_cut_to_fail(device) || read_front(files[PAGES], &pages->len, pages->bytes, sizeof pages->bytes, PAGE_SIZE);
	if (!failed)
		im_log_cuts(&folder, &cuts);
	if (cuts.gone || cuts.after) {
		int left = files[cuts.is_log2 ? LOG2 : LOG], current = files[cuts.is_log2 ? LOG : LOG2];
		/* The current one is brought to the disk before: a power cut must not leave none of the two. */
		failed = is_cut_to_fail(device) || fsync(current) || cut_log(device, left, cuts.kept, cuts.gone) || cut_log(device, current, cuts.end, cuts.after);
	}
	if (failed)
		atomic_compare_exchange_strong(&device->why, &none, errno);
	return failed ? VAH_DEVICE : VAH_OK;
}
