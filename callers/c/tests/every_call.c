/* Each call of the device of a life fails in turn, and each after it; then the store is opened again. Built with -DVAH_TEST. every_call FOLDER
 * [STEP]: with a STEP each STEPth call alone. */
#define _GNU_SOURCE
#include "life.h"

static void note(int turn, void *acked) { *(int *)acked |= 1 << turn; }

int main(int argc, char **argv)
{
	int rc = 1, n, step = argc > 2 ? atoi(argv[2]) : 1, stopped = 0;
	if (argc < 2) return 1;
	for (n = 1; rc; n += step) {
		char dir[4096], number[32];
		int acked = 0;
		snprintf(dir, sizeof dir, "%s/%d", argv[1], n);
		snprintf(number, sizeof number, "%d", n);
		setenv("VAH_FAIL_AT", number, 1);
		rc = life(dir, note, &acked);
		HOLDS(!rc || rc == VAH_DEVICE || rc == VAH_FAILED);
		HOLDS(!rc || strstr(vah_last_error(), "(Input/output error)"));
		unsetenv("VAH_FAIL_AT");
		life_kept(dir, acked);
		stopped += rc != 0;
	}
	printf("%d calls of the device failed in turn: each store was opened again with what was acknowledged\n", stopped);
	return stopped < 20 / step;
}
