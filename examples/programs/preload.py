"""Runs a program with a library laid before the C library's that refuses one request for memory, or fails one call of the system.

A C compiler builds the library in a temporary folder; it is no part of any program.
"""

import mmap
import os
import struct
import subprocess
import sys

LIBRARY = r"""
#define _GNU_SOURCE
#include <dlfcn.h>
#include <errno.h>
#include <fcntl.h>
#include <stdarg.h>
#include <stdlib.h>
#include <string.h>
#include <sys/mman.h>
#include <sys/stat.h>
#include <unistd.h>

void *__libc_malloc(size_t size);
void *__libc_realloc(void *old, size_t size);

/* the number of the call that fails, counted from 1, and how many came so far; of which kind they are */
static volatile long *shared;
static const char *kind, *folder;

static int is_refused(const char *name, int error)
{
	if (shared == NULL) {
		int fd = syscall(2, getenv("NUMBERS"), O_RDWR);
		kind = getenv("KIND");
		folder = getenv("FOLDER");
		shared = mmap(NULL, 4096, PROT_READ | PROT_WRITE, MAP_SHARED, fd, 0);
		close(fd);
	}
	if (strcmp(name, kind) || __sync_add_and_fetch(shared + 1, 1) != shared[0])
		return 0;
	errno = error;
	return 1;
}

void *malloc(size_t size) { return is_refused("malloc", ENOMEM) ? NULL : __libc_malloc(size); }
void *realloc(void *old, size_t size) { return is_refused("malloc", ENOMEM) ? NULL : __libc_realloc(old, size); }

/* the function of the C library that this one hides */
#define REAL(name) ((__typeof__(&name))dlsym(RTLD_NEXT, #name))

/* What is printed is no file of a store. */
static int is_file(int fd)
{
	struct stat found;
	return fd > 2 && fstat(fd, &found) == 0 && (S_ISREG(found.st_mode) || S_ISDIR(found.st_mode));
}

#define FAILS(name, fd) (is_file(fd) && is_refused(name, EIO))

ssize_t write(int fd, const void *at, size_t size) { return FAILS("write", fd) ? -1 : REAL(write)(fd, at, size); }
ssize_t pwrite(int fd, const void *at, size_t size, off_t to) { return FAILS("pwrite", fd) ? -1 : REAL(pwrite)(fd, at, size, to); }
ssize_t pwrite64(int fd, const void *at, size_t size, off_t to) { return FAILS("pwrite", fd) ? -1 : REAL(pwrite64)(fd, at, size, to); }
ssize_t pread(int fd, void *at, size_t size, off_t from) { return FAILS("pread", fd) ? -1 : REAL(pread)(fd, at, size, from); }
ssize_t pread64(int fd, void *at, size_t size, off_t from) { return FAILS("pread", fd) ? -1 : REAL(pread64)(fd, at, size, from); }
int fsync(int fd) { return FAILS("fsync", fd) ? -1 : REAL(fsync)(fd); }
int fdatasync(int fd) { return FAILS("fdatasync", fd) ? -1 : REAL(fdatasync)(fd); }
int ftruncate(int fd, off_t size) { return FAILS("ftruncate", fd) ? -1 : REAL(ftruncate)(fd, size); }
int ftruncate64(int fd, off_t size) { return FAILS("ftruncate", fd) ? -1 : REAL(ftruncate64)(fd, size); }
int rename(const char *from, const char *to) { return is_refused("rename", EIO) ? -1 : REAL(rename)(from, to); }

static int is_in_folder(const char *path)
{
	is_refused("", 0);
	return folder != NULL && strncmp(path, folder, strlen(folder)) == 0;
}

#define OPENS(name) \
	int name(const char *path, int flags, ...) \
	{ \
		va_list more; \
		va_start(more, flags); \
		int mode = va_arg(more, int); \
		va_end(more); \
		return is_in_folder(path) && is_refused("open", EIO) ? -1 : REAL(name)(path, flags, mode); \
	}

OPENS(open)
OPENS(open64)
"""


def build(folder):
    """Builds the library in a folder."""
    with open(f"{folder}/preload.c", "w", encoding="ascii") as it:
        it.write(LIBRARY)
    words = [os.environ.get("CC", "cc"), "-shared", "-fPIC", "-O1", "-w", "-o", f"{folder}/preload.so", f"{folder}/preload.c", "-ldl"]
    if subprocess.run(words, check=False).returncode:
        sys.exit("no C compiler: set CC")


class Refused:
    """A program, one of whose calls fails."""

    def __init__(self, folder):
        self.folder, self.said = folder, ""
        numbers = f"{folder}/numbers{os.getpid()}"
        with open(numbers, "wb") as it:
            it.write(bytes(4096))
        with open(numbers, "r+b") as it:
            self.numbers = mmap.mmap(it.fileno(), 4096)
        self.env = dict(os.environ, LD_PRELOAD=f"{folder}/preload.so", NUMBERS=numbers)

    def run(self, words, kind, number, lines="", store=""):
        """Its status, the lines of its output, and how many calls of this kind came, of which that of the number failed; `said` is its standard error.
        FOLDER is the store's."""
        self.numbers[:16] = struct.pack("qq", number, 0)
        env = dict(self.env, KIND=kind, FOLDER=store)
        done = subprocess.run(words, env=env, input=lines.encode(), capture_output=True, timeout=120, check=False)
        self.said = done.stderr.decode(errors="replace")
        return done.returncode, done.stdout.decode().split("\n")[:-1], struct.unpack("qq", self.numbers[:16])[1]
