/* A child that goes astray ends by a signal, and its parent goes on. */
#include <stdio.h>
#include <sys/wait.h>
#include <unistd.h>

int main(void)
{
	volatile int zero = 0;
	int status;
	pid_t child = fork();

	if (child == 0) {
		*(volatile int *)0x40000000 = 7 + zero;
		_exit(0);
	}
	if (waitpid(child, &status, 0) == child && WIFSIGNALED(status))
		printf("the child was ended by signal %d\n", WTERMSIG(status));
	child = fork();
	if (child == 0)
		_exit(7 / zero);
	if (waitpid(child, &status, 0) == child && WIFSIGNALED(status))
		printf("and the other by signal %d\n", WTERMSIG(status));
	return 0;
}
