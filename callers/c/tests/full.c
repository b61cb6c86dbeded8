/* A file that may not grow: the store says so with the system's reason, fails, closes, and has what was committed when it is opened again. full
 * FOLDER; full FOLDER disk: FOLDER lies on a small disk, which fills up. */
#include "test.h"
#include <errno.h>
#include <fcntl.h>
#include <sys/resource.h>
#include <unistd.h>

/* Puts keys in, one a commit, until one is refused; how many were kept. */
static uint64_t fill(vah_store *store, int reason, const char *words)
{
	vah_txn *txn;
	uint64_t kept = 0;
	int rc = 0;
	for (uint64_t i = 0; !rc && i < 100000; i++) {
		rc = vah_begin(store, &txn);
		if (rc) break;
		rc = vah_insert(txn, &i, 8, i);
		int is_inserted = !rc;
		if (is_inserted && !(rc = vah_commit(txn))) kept = i + 1;
		HOLDS(!rc || errno == reason);
		if (!is_inserted) vah_rollback(txn);
	}
	IS(rc, VAH_DEVICE);
	HOLDS(strstr(vah_last_error(), words));
	IS(vah_begin(store, &txn), VAH_FAILED);
	IS(vah_close(store), VAH_FAILED);
	return kept;
}

/* Opens the store again, which has what was kept, and maybe the one whose commit was refused, and no more. */
static void look(const char *dir, uint64_t kept)
{
	vah_store *store;
	vah_txn *txn;
	uint64_t n;
	OK(vah_open(dir, NULL, &store));
	OK(vah_begin(store, &txn));
	for (uint64_t i = 0; i < kept; i++) {
		OK(vah_fetch(txn, &i, 8, &n));
		HOLDS(n == i);
	}
	int rc = vah_fetch(txn, &kept, 8, &n);
	HOLDS(rc == VAH_OK || rc == VAH_NOT_FOUND);
	for (n = kept + 1; n < kept + 3; n++)
		IS(vah_fetch(txn, &n, 8, &(uint64_t){ 0 }), VAH_NOT_FOUND);
	OK(vah_commit(txn));
	OK(vah_close(store));
	HOLDS(kept > 0);
}

int main(int argc, char **argv)
{
	struct rlimit small = { 100000, RLIM_INFINITY }, large = { RLIM_INFINITY, RLIM_INFINITY };
	static char zeros[400000], dir[4096], spare[4096];
	vah_store *store;
	uint64_t kept;
	if (argc < 2) return 1;
	snprintf(dir, sizeof dir, "%s/store", argv[1]);
	snprintf(spare, sizeof spare, "%s/spare", argv[1]);
	if (argc > 2) {
		int fd = open(spare, O_WRONLY | O_CREAT, 0666);
		HOLDS(fd >= 0 && write(fd, zeros, sizeof zeros) == sizeof zeros && !close(fd));
		OK(vah_open(dir, NULL, &store));
		kept = fill(store, ENOSPC, "(No space left on device)");
		HOLDS(!unlink(spare));
	} else {
		OK(vah_open(dir, NULL, &store));
		setrlimit(RLIMIT_FSIZE, &small);
		kept = fill(store, EFBIG, "(File too large)");
		setrlimit(RLIMIT_FSIZE, &large);
	}
	look(dir, kept);
	return 0;
}
