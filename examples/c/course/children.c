/* Children that end in another order than they are waited for, each with a code of its own. */
#include <stdio.h>
#include <stdlib.h>
#include <sys/types.h>
#include <sys/wait.h>
#include <unistd.h>

#define MANY 5

int main(void)
{
	pid_t children[MANY];
	int number, status, sum = 0;
	volatile int idle;

	printf("%d children are begun\n", MANY);
	fflush(stdout);
	for (number = 0; number < MANY; number++) {
		children[number] = fork();
		if (children[number] < 0) {
			perror("fork");
			return 1;
		}
		if (children[number] == 0) {
			for (idle = 0; idle < 50 * (MANY - number); idle++)
				;
			exit(10 + number);
		}
	}
	for (number = MANY - 1; number >= 0; number--) {
		if (waitpid(children[number], &status, 0) != children[number])
			return 2;
		if (WIFEXITED(status)) {
			printf("child %d ended with code %d\n", number, WEXITSTATUS(status));
			sum += WEXITSTATUS(status);
		}
	}
	printf("sum %d, and nobody is left: %d\n", sum, (int)waitpid(-1, &status, 0));
	return 0;
}
