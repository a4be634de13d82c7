/* A garbage collector that copies. There are two halves: cells are taken from one until it is full, and then those that
   are still reached are copied to the other. It runs with halves of 80 pages, and with halves of 20. */

#include <stdio.h>

#define LARGEST 5120		/* cells of a half, 64 to a page */
#define CELLS 13000		/* are taken in all */
#define KEPT 100		/* are reached at a time */

struct cell {
	struct cell *next;
	struct cell *copy;	/* of a cell that was copied */
	int value;
	int spare;
};

static struct cell halves[2][LARGEST];
static struct cell *list, *at, *limit;
static int half, collections;

/* the place of a cell in the other half, to which it is copied once */
static struct cell *copy(struct cell *cell)
{
	if (cell == NULL)
		return NULL;
	if (cell->copy == NULL) {
		*at = *cell;
		cell->copy = at++;
	}
	return cell->copy;
}

static void collect(int cells)
{
	struct cell *seen;

	half = 1 - half;
	seen = at = halves[half];
	limit = at + cells;
	list = copy(list);
	for (; seen < at; seen++)
		seen->next = copy(seen->next);
	collections++;
}

static struct cell *take(int value, struct cell *next, int cells)
{
	struct cell *cell;

	if (at == limit) {
		list = next;
		collect(cells);
		next = list;
	}
	cell = at++;
	cell->value = value;
	cell->next = next;
	cell->copy = NULL;
	return cell;
}

static void try(int cells)
{
	struct cell *cell;
	int number, sum = 0;

	half = collections = 0;
	at = halves[0];
	limit = at + cells;
	list = NULL;
	for (number = 0; number < CELLS; number++) {
		if (number % KEPT == 0)
			list = NULL;
		list = take(number, list, cells);
	}
	for (cell = list; cell != NULL; cell = cell->next)
		sum += cell->value;
	printf("halves of %d pages: %d collections, sum %d\n", cells / 64, collections, sum);
	fflush(stdout);
}

int main(void)
{
	try(LARGEST);
	try(LARGEST / 4);
	return 0;
}
