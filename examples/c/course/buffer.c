/* A producer and a consumer with a bounded buffer, in turns, as by two semaphores. */
#include <assert.h>
#include <stdbool.h>
#include <stdio.h>

#define PLACES 4
#define ITEMS 12

static int buffer[PLACES], in, out;
static int empty = PLACES, full = 0;

static bool down(int *semaphore)
{
	if (*semaphore == 0)
		return false;
	--*semaphore;
	return true;
}

static void up(int *semaphore)
{
	++*semaphore;
}

int main(void)
{
	int made = 0, used = 0, turn, waits_to_make = 0, waits_to_use = 0, sum = 0;

	for (turn = 0; used < ITEMS; turn++)
		if (turn % 7 < 4 && made < ITEMS) {
			if (!down(&empty)) {
				waits_to_make++;
				continue;
			}
			buffer[in] = made++ * made;
			in = (in + 1) % PLACES;
			up(&full);
		} else {
			if (!down(&full)) {
				waits_to_use++;
				continue;
			}
			assert(empty + full == PLACES - 1);
			sum += buffer[out];
			out = (out + 1) % PLACES;
			used++;
			up(&empty);
		}
	printf("%d turns, %d items, sum %d; the producer waited %d times, the consumer %d\n", turn, used, sum, waits_to_make, waits_to_use);
	return 0;
}
