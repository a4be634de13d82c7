/* The calls about processes, and what they answer. */

#include <errno.h>
#include <stdio.h>
#include <sys/wait.h>
#include <unistd.h>

static int shared = 1;

int main(int argc, char **argv)
{
	char *again[4];
	int status, child, first = getpid();

	if (argc > 1) {
		printf("started again with %s and %s\n", argv[1], argv[2]);
		return 9;
	}
	printf("%d %d\n", wait(NULL), errno == ECHILD);
	printf("%d %d\n", (int)write(77, "x", 1), errno == EBADF);
	fflush(stdout);
	child = fork();
	if (child == 0) {
		shared = 2;
		_exit(getpid() != first ? 41 : 0);
	}
	printf("%d ", wait(&status) == child);
	printf("%d %d %d\n", WIFEXITED(status), WEXITSTATUS(status), shared);
	fflush(stdout);
	again[0] = "processes";
	again[1] = "one";
	again[2] = "two";
	again[3] = NULL;
	child = vfork();
	if (child == 0) {
		shared = 3;
		execve("nowhere", again, NULL);
		if (errno != ENOENT)
			_exit(1);
		execve("processes", again, NULL);
		_exit(2);
	}
	printf("%d ", wait(&status) == child);
	printf("%d %d %d\n", WIFEXITED(status), WEXITSTATUS(status), shared);
	fflush(stdout);
	child = fork();
	if (child == 0) {
		status = 1;
		status = 5 / (status - 1);
		_exit(status);
	}
	wait(&status);
	printf("%d %d\n", WIFEXITED(status), WTERMSIG(status));
	return 0;
}
