/* The files of a copy: `log.part`, `pages.part` and `log2.part` until all of it is written, and then those of a store. An opening of the folder is refused as long as there is a
 * `log.part`, so that one is made first, and gets its name last. It stands for FileDisk's create_copy and name_copy. */
#define _GNU_SOURCE
#include "files.h"
#include <dirent.h>
#include <errno.h>
#include <fcntl.h>
#include <stdio.h>
#include <stdlib.h>
#include <string.h>
#include <sys/file.h>
#include <unistd.h>

static const char *const parts[FILES] = { [LOG] = "log.part", [PAGES] = "pages.part", [LOG2] = "log2.part" };
static const char *const names[FILES] = { [LOG] = "log", [PAGES] = "pages", [LOG2] = "log2" };

/* What a call of the system on the files of a copy failed by is no failure of the store. */
static int end_of_copy(struct opening *o)
{
	errno = o->why;
	return o->code == VAH_DEVICE ? VAH_NOT_COPIED : o->code;
}

/* Opens a folder, or the nearest above it that is there; -1 where there is none, or it cannot be told. The path is cut to it. */
static int open_nearest(char *path)
{
	int fd;
	while ((fd = open(path, O_PATH | O_DIRECTORY | O_CLOEXEC)) < 0 && errno == ENOENT && strcmp(path, ".")) {
		char *end = strrchr(path, '/');
		if (!end)
			strcpy(path, ".");
		else
			end[end == path && path[1]] = 0;
	}
	return fd;
}

/* Whether a folder that is there or not is this one, or lies in it. */
static int lies_in(char *path, const struct stat *folder)
{
	struct stat at = { 0 }, above = { 0 };
	int fd = open_nearest(path), is_in = 0, is_top = 0;
	while (fd >= 0 && !is_in && !is_top && !fstat(fd, &at)) {
		is_in = at.st_dev == folder->st_dev && at.st_ino == folder->st_ino;
		int up = openat(fd, "..", O_PATH | O_DIRECTORY | O_CLOEXEC);
		is_top = up < 0 || fstat(up, &above) || (above.st_dev == at.st_dev && above.st_ino == at.st_ino);
		close(fd);
		fd = up;
	}
	if (fd >= 0)
		close(fd);
	return is_in;
}

/* Makes the folder of a copy, which is not the store's own and does not lie in it. */
static int make_folders_of_copy(struct opening *o, const struct stat *store)
{
	char *looked = own_path(o), *made = o->code ? NULL : own_path(o);
	if (!o->code && lies_in(looked, store))
		refuse_files(o, VAH_NOT_EMPTY, "it is the folder of the store, or lies in it");
	else if (!o->code)
		make_folders(o, made);
	free(looked);
	free(made);
	return o->code ? -1 : 0;
}

static int is_empty(struct opening *o, int folder)
{
	int fd = openat(folder, ".", O_RDONLY | O_DIRECTORY | O_CLOEXEC), count = 0;
	DIR *entries = fd < 0 ? NULL : fdopendir(fd);
	struct dirent *entry;
	errno = 0;
	while (entries && (entry = readdir(entries)))
		count += strcmp(entry->d_name, ".") && strcmp(entry->d_name, "..");
	int why = errno;
	if (entries)
		closedir(entries);
	else if (fd >= 0)
		close(fd);
	errno = why;
	if (why || !entries)
		return refuse_system(o);
	return count ? refuse_files(o, VAH_NOT_EMPTY, "it is not empty") : 0;
}

/* Makes a file of the copy, which must not have been there. */
static int make_part(struct opening *o, struct copy *copy, int file)
{
	int fd = is_copy_to_fail(copy) ? -1 : openat(copy->folder, parts[file], O_RDWR | O_CREAT | O_EXCL | O_CLOEXEC | O_NOCTTY, 0666);
	if (fd < 0 && errno == EEXIST)
		return refuse_files(o, VAH_NOT_EMPTY, "it is not empty");
	copy->names[file] = fd < 0 ? NULL : parts[file];
	return (copy->files[file] = not_standard(o, fd)) < 0 ? -1 : 0;
}

/* Makes the files, `log.part` first, as no folder is opened that has it. */
static int make_parts(struct opening *o, struct copy *copy)
{
	if (make_part(o, copy, LOG))
		return -1;
	if (is_copy_to_fail(copy) || flock(copy->files[LOG], LOCK_EX | LOCK_NB))
		return errno == EWOULDBLOCK ? refuse_files(o, VAH_LOCKED, "the store is open elsewhere") : refuse_system(o);
	/* an opening that looked for `log.part` before it was there has made `log` by now */
	if (!faccessat(copy->folder, "log", F_OK, AT_SYMLINK_NOFOLLOW))
		return refuse_files(o, VAH_NOT_EMPTY, "it is not empty");
	return make_part(o, copy, PAGES) || make_part(o, copy, LOG2) ? -1 : 0;
}

int vah_device_make_copy(struct copy *copy, const struct stat *store, char *text, size_t size)
{
	struct opening o = { copy->path, 0, text, size, 0, 0 };
	int folders[3] = { -1, -1, -1 };
	copy->folder = copy->files[LOG] = copy->files[PAGES] = copy->files[LOG2] = -1;
	if (is_copy_to_fail(copy))
		refuse_system(&o);
	else if (!make_folders_of_copy(&o, store) && !open_folders(&o, folders)) {
		copy->folder = folders[2];
		if (!is_empty(&o, copy->folder) && make_parts(&o, copy))
			vah_device_take_copy_away(copy);
	}
	close_all(folders, copy->folder < 0 ? 3 : 2);
	if (o.code)
		vah_device_close_copy(copy);
	return end_of_copy(&o);
}

int vah_device_sync_copy(struct copy *copy, char *text, size_t size)
{
	struct opening o = { copy->path, 0, text, size, 0, 0 };
	for (int i = 0; i < FILES && !o.code; i++)
		if (is_copy_to_fail(copy) || fsync(copy->files[i]))
			refuse_system(&o);
	return end_of_copy(&o);
}

/* Gives a file of the copy the name of a store's. */
static int name_file(struct opening *o, struct copy *copy, int file)
{
	if (is_copy_to_fail(copy) || renameat(copy->folder, parts[file], copy->folder, names[file]))
		return refuse_system(o);
	copy->names[file] = names[file];
	return 0;
}

/* A `log` must not come to the disk before the others have. */
int vah_device_name_copy(struct copy *copy, char *text, size_t size)
{
	struct opening o = { copy->path, 0, text, size, 0, 0 };
	char *own = own_path(&o);
	if (!o.code && !name_file(&o, copy, PAGES) && !name_file(&o, copy, LOG2)) {
		if (is_copy_to_fail(copy) || fsync(copy->folder))
			refuse_system(&o);
		else if (!name_file(&o, copy, LOG)) {
			if (is_copy_to_fail(copy))
				refuse_system(&o);
			else
				sync_folders(&o, own);
		}
	}
	free(own);
	return end_of_copy(&o);
}

/* Says by which reason of the system the copy was given up. */
int vah_device_refuse_copy(struct copy *copy, char *text, size_t size)
{
	struct opening o = { copy->path, 0, text, size, 0, 0 };
	errno = copy->why;
	refuse_system(&o);
	return end_of_copy(&o);
}

/* `log.part` goes last, and stays where another one does. Once it is `log` the copy is whole. */
void vah_device_take_copy_away(struct copy *copy)
{
	static const int order[] = { PAGES, LOG2, LOG };
	for (int i = 0; i < FILES && copy->names[LOG] != names[LOG]; i++) {
		int file = order[i];
		if (copy->names[file] && (is_copy_to_fail(copy) || unlinkat(copy->folder, copy->names[file], 0)))
			return;
		copy->names[file] = NULL;
	}
}

void vah_device_close_copy(struct copy *copy)
{
	int all[] = { copy->files[PAGES], copy->files[LOG2], copy->folder, copy->files[LOG] };
	if (copy->files[LOG] >= 0)
		flock(copy->files[LOG], LOCK_UN);
	close_all(all, 4);
	copy->folder = copy->files[LOG] = copy->files[PAGES] = copy->files[LOG2] = -1;
}
