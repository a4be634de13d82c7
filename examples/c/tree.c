/* A tree of 15 processes. Each one has 16 pages of data that its parent filled, changes one of them, and makes two children,
   until the fourth generation. */

#include <stdio.h>
#include <stdlib.h>
#include <sys/wait.h>
#include <unistd.h>

#define GENERATIONS 4
#define LONGWORDS 4096

static int data[LONGWORDS];

/* makes the tree below this process; answers how many processes it has, with this one */
static int grow(int generation)
{
	int count = 1, child, status;

	data[256 * generation] += generation;
	if (generation == GENERATIONS)
		return count;
	for (child = 0; child < 2; child++)
		switch (fork()) {
		case -1:
			return 0;
		case 0:
			_exit(grow(generation + 1));
		}
	for (child = 0; child < 2; child++) {
		wait(&status);
		count += WEXITSTATUS(status);
	}
	return count;
}

int main(void)
{
	int at, sum = 0;

	for (at = 0; at < LONGWORDS; at += 64)
		data[at] = at;
	puts("filled");
	fflush(stdout);
	printf("processes %d\n", grow(1));
	fflush(stdout);
	for (at = 0; at < LONGWORDS; at += 64)
		sum += data[at];
	printf("sum of the first one's data %d\n", sum);
	return 0;
}
