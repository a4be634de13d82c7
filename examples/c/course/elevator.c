/* How far a disk's arm goes by three ways to choose the next request. */
#include <stdio.h>
#include <stdlib.h>

static const int requests[] = { 98, 183, 37, 122, 14, 124, 65, 67 };
#define MANY ((int)(sizeof requests / sizeof requests[0]))
#define START 53

static int by_number(const void *one, const void *other)
{
	return *(const int *)one - *(const int *)other;
}

static int in_order(const int *order)
{
	int at, arm = START, way = 0;

	for (at = 0; at < MANY; at++) {
		way += abs(order[at] - arm);
		arm = order[at];
		printf(" %d", arm);
	}
	return way;
}

static void nearest(int *order)
{
	int left[MANY], many = MANY, at, best, arm = START;

	for (at = 0; at < MANY; at++)
		left[at] = requests[at];
	while (many > 0) {
		for (best = at = 0; at < many; at++)
			if (abs(left[at] - arm) < abs(left[best] - arm))
				best = at;
		arm = *order++ = left[best];
		left[best] = left[--many];
	}
}

static void scan(int *order)
{
	int sorted[MANY], at, first = 0;

	for (at = 0; at < MANY; at++)
		sorted[at] = requests[at];
	qsort(sorted, MANY, sizeof sorted[0], by_number);
	while (first < MANY && sorted[first] < START)
		first++;
	for (at = first; at < MANY; at++)
		*order++ = sorted[at];
	for (at = first - 1; at >= 0; at--)
		*order++ = sorted[at];
}

int main(void)
{
	int order[MANY];

	printf("as they come:");
	printf(": %d\n", in_order(requests));
	nearest(order);
	printf("the nearest:");
	printf(": %d\n", in_order(order));
	scan(order);
	printf("as a lift:");
	printf(": %d\n", in_order(order));
	return 0;
}
