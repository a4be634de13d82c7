/* A buddy allocator: blocks are halved until they fit, and join again with their buddies. */
#include <stdio.h>
#include <string.h>

#define LEAST 4		/* 16 bytes */
#define MOST 10		/* 1,024 */

static unsigned char order_of[1 << (MOST - LEAST)];	/* of each block that begins here; 0 inside of one */
static unsigned char is_taken[1 << (MOST - LEAST)];

static void show(const char *what)
{
	int at;

	printf("%-10s", what);
	for (at = 0; at < 1 << (MOST - LEAST); at += 1 << (order_of[at] - LEAST))
		printf(" %c%d", is_taken[at] ? '#' : '.', 1 << order_of[at]);
	putchar('\n');
}

static int take(int bytes)
{
	int order = LEAST, at, best = -1;

	while (1 << order < bytes)
		order++;
	for (at = 0; at < 1 << (MOST - LEAST); at += 1 << (order_of[at] - LEAST))
		if (!is_taken[at] && order_of[at] >= order && (best < 0 || order_of[at] < order_of[best]))
			best = at;
	if (best < 0)
		return -1;
	while (order_of[best] > order) {
		order_of[best]--;
		order_of[best + (1 << (order_of[best] - LEAST))] = order_of[best];
	}
	is_taken[best] = 1;
	return best;
}

static void give(int at)
{
	int buddy;

	is_taken[at] = 0;
	while (order_of[at] < MOST) {
		buddy = at ^ 1 << (order_of[at] - LEAST);
		if (is_taken[buddy] || order_of[buddy] != order_of[at])
			return;
		if (buddy < at) {
			order_of[at] = 0;
			at = buddy;
		} else
			order_of[buddy] = 0;
		order_of[at]++;
	}
}

int main(void)
{
	int a, b, c, d;

	memset(order_of, 0, sizeof order_of);
	order_of[0] = MOST;
	show("at first");
	a = take(100);
	show("100");
	b = take(30);
	c = take(30);
	show("30, 30");
	d = take(500);
	show("500");
	printf("600: %d\n", take(600));
	give(b);
	give(a);
	show("two back");
	give(c);
	give(d);
	show("all back");
	return 0;
}
