/* An allocator that fragments memory and swap. 600 small blocks are taken, each with a larger one after it, and the larger
   ones are given back: what is left is 24 bytes in each 264. Then a long block is asked for. */

#include <stdio.h>
#include <stdlib.h>

#define BLOCKS 600
#define ROUNDS 5
#define LONG 80000

struct small {
	struct small *next;
	int value;
	int spare[2];
};

static struct small *first;
static char *larger[BLOCKS];

static int walk(void)
{
	struct small *small;
	int round, sum = 0;

	for (round = 0; round < ROUNDS; round++)
		for (small = first; small != NULL; small = small->next)
			sum += small->value;
	return sum;
}

static void take(int with_larger)
{
	struct small *small;
	int at;

	first = NULL;
	for (at = 0; at < BLOCKS; at++) {
		small = malloc(sizeof *small);
		small->value = at;
		small->next = first;
		first = small;
		if (with_larger) {
			larger[at] = malloc(232);
			larger[at][0] = at;
		}
	}
}

int main(void)
{
	char *longer;
	int at;

	take(0);
	puts("small ones alone are taken");
	fflush(stdout);
	printf("the walk %d\n", walk());
	fflush(stdout);
	take(1);
	for (at = BLOCKS - 1; at >= 0; at--)
		free(larger[at]);
	puts("small ones between larger ones are taken, and these given back");
	fflush(stdout);
	printf("the walk %d\n", walk());
	fflush(stdout);
	longer = malloc(LONG);
	if (longer != NULL)
		for (at = 0; at < LONG; at += 1000)
			longer[at] = at;
	puts(longer != NULL ? "a long block is taken" : "there is no room for a long block");
	return 0;
}
