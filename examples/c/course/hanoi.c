/* The towers of Hanoi, with the moves of the last disc. */
#include <stdio.h>
#include <stdlib.h>

static int moves;

static void move(int disc, char from, char to, char by)
{
	if (disc == 0)
		return;
	move(disc - 1, from, by, to);
	moves++;
	if (disc >= 7)
		printf("%d: disc %d from %c to %c\n", moves, disc, from, to);
	move(disc - 1, by, to, from);
}

int main(int argc, char **argv)
{
	int discs = argc > 1 ? atoi(argv[1]) : 9;

	move(discs, 'A', 'C', 'B');
	printf("%d discs, %d moves\n", discs, moves);
	return moves == (1 << discs) - 1 ? 0 : 1;
}
