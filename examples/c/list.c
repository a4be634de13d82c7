/* A list of 2,560 nodes on 160 pages, walked as it lies in memory, and walked again when its order was shuffled. */

#include <stdio.h>
#include <stdlib.h>

#define NODES 2560

struct node {
	struct node *next;
	int value;
	int spare[14];
};

static struct node nodes[NODES];
static short order[NODES];

static struct node *link_in_order(void)
{
	int at;

	for (at = 0; at + 1 < NODES; at++)
		nodes[order[at]].next = &nodes[order[at + 1]];
	nodes[order[at]].next = NULL;
	return &nodes[order[0]];
}

static int walk(struct node *node)
{
	int sum = 0, place = 0;

	for (; node != NULL; node = node->next)
		sum += ++place & node->value;
	return sum;
}

int main(void)
{
	struct node *first;
	int at, other;
	short kept;

	for (at = 0; at < NODES; at++) {
		order[at] = at;
		nodes[at].value = at;
	}
	first = link_in_order();
	puts("linked");
	fflush(stdout);
	printf("in order %d\n", walk(first));
	fflush(stdout);
	for (at = NODES - 1; at > 0; at--) {
		other = rand() % (at + 1);
		kept = order[at];
		order[at] = order[other];
		order[other] = kept;
	}
	first = link_in_order();
	puts("shuffled");
	fflush(stdout);
	printf("in the new order %d\n", walk(first));
	return 0;
}
