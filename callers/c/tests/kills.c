/* A process is killed within each call of the device of its life in turn; then the store is opened again. Built with -DVAH_TEST. */
#define _GNU_SOURCE
#include "life.h"
#include <signal.h>
#include <sys/wait.h>
#include <unistd.h>

static void tell(int turn, void *fd)
{
	char byte = (char)turn;
	HOLDS(write(*(int *)fd, &byte, 1) == 1);
}

int main(int argc, char **argv)
{
	int killed = 1, n, step = argc > 2 ? atoi(argv[2]) : 1, count = 0;
	if (argc < 2) return 1;
	for (n = 1; killed; n += step) {
		char dir[4096], number[32], turn;
		int acked = 0, status, pipes[2];
		snprintf(dir, sizeof dir, "%s/%d", argv[1], n);
		snprintf(number, sizeof number, "%d", n);
		HOLDS(!pipe(pipes));
		pid_t child = fork();
		if (!child) {
			close(pipes[0]);
			setenv("VAH_KILL_AT", number, 1);
			_exit(life(dir, tell, &pipes[1]) != 0);
		}
		close(pipes[1]);
		while (read(pipes[0], &turn, 1) == 1) acked |= 1 << turn;
		close(pipes[0]);
		waitpid(child, &status, 0);
		killed = WIFSIGNALED(status) && WTERMSIG(status) == SIGKILL;
		HOLDS(killed || (WIFEXITED(status) && WEXITSTATUS(status) == 0));
		life_kept(dir, acked);
		count += killed;
	}
	printf("killed within each of %d calls of the device: each store was opened again with what was acknowledged\n", count);
	return count < 20 / step;
}
