/* What a shell does: for each command a child, which becomes the command's program, and a wait. It does it twice, with
   vfork and with fork, and has a history of 48 pages itself. */

#include <stdio.h>
#include <sys/wait.h>
#include <unistd.h>

#define COMMANDS 4

static char *commands[COMMANDS][4] = {
	{ "say", "who", "am", NULL },
	{ "say", "hello", NULL },
	{ "missing", NULL },
	{ "say", "that", "is all", NULL },
};
static char history[48 * 1024];

static int run(char **command, int lend)
{
	int child, status;

	child = lend ? vfork() : fork();
	if (child == 0) {
		execve(command[0], command, NULL);
		_exit(127);
	}
	wait(&status);
	return WEXITSTATUS(status);
}

int main(void)
{
	int statuses[COMMANDS], lend, at, page;

	for (page = 0; page < 48; page++)
		history[1024 * page] = page;
	puts("filled");
	fflush(stdout);
	for (lend = 1; lend >= 0; lend--) {
		for (at = 0; at < COMMANDS; at++)
			statuses[at] = run(commands[at], lend);
		for (at = 0; at < COMMANDS; at++)
			printf("%s: %d\n", commands[at][0], statuses[at]);
		printf("that was %s\n", lend ? "vfork" : "fork");
		fflush(stdout);
	}
	return 0;
}
