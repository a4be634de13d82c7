/* 4,480 records, sorted, asked for by key: once by halving an array of them, and once by a B-tree, whose nodes have a page
   each. The tree is built from the sorted records, level by level, as an index is. */

#include <stdio.h>
#include <stdlib.h>

#define RECORDS 4480
#define QUESTIONS 1000
#define ENTRIES 28		/* of a leaf: 28 records of 36 bytes */
#define BRANCHES 28		/* of a node above the leaves */

struct record {
	int key;
	int value;
	int spare[7];
};

struct node {
	int count;
	int is_leaf;
	union {
		struct record records[ENTRIES];
		struct {
			int lowest[BRANCHES];
			struct node *below[BRANCHES];
		} inner;
	} in;
};

static struct record sorted[RECORDS];
static struct node *level[RECORDS / ENTRIES];

static int key_of(int number)
{
	return 7 * number + 3;
}

static int by_halving(int key)
{
	int low = 0, high = RECORDS - 1, middle;

	while (low < high) {
		middle = (low + high + 1) >> 1;
		if (sorted[middle].key <= key)
			low = middle;
		else
			high = middle - 1;
	}
	return sorted[low].key == key ? sorted[low].value : -1;
}

/* the place of the last of so many keys, each `step` longwords behind the one before, that isn't above `key` */
static int place(const int *keys, int step, int count, int key)
{
	int low = 0, high = count - 1, middle;

	while (low < high) {
		middle = (low + high + 1) >> 1;
		if (keys[middle * step] <= key)
			low = middle;
		else
			high = middle - 1;
	}
	return low;
}

static int by_tree(const struct node *node, int key)
{
	const struct record *record;

	while (!node->is_leaf)
		node = node->in.inner.below[place(node->in.inner.lowest, 1, node->count, key)];
	record = node->in.records + place(&node->in.records[0].key, sizeof *record / sizeof(int), node->count, key);
	return record->key == key ? record->value : -1;
}

static int lowest(const struct node *node)
{
	return node->is_leaf ? node->in.records[0].key : node->in.inner.lowest[0];
}

static struct node *build(void)
{
	struct node *node;
	int at, nodes = 0, above;

	for (at = 0; at < RECORDS; at++) {
		if (at % ENTRIES == 0) {
			node = malloc(sizeof *node);
			node->count = 0;
			node->is_leaf = 1;
			level[nodes++] = node;
		}
		node->in.records[node->count++] = sorted[at];
	}
	while (nodes > 1) {
		above = 0;
		for (at = 0; at < nodes; at++) {
			if (at % BRANCHES == 0) {
				node = malloc(sizeof *node);
				node->count = node->is_leaf = 0;
			}
			node->in.inner.lowest[node->count] = lowest(level[at]);
			node->in.inner.below[node->count++] = level[at];
			if (node->count == BRANCHES || at == nodes - 1)
				level[above++] = node;
		}
		nodes = above;
	}
	return level[0];
}

int main(void)
{
	struct node *root;
	int at, sum;

	for (at = 0; at < RECORDS; at++) {
		sorted[at].key = key_of(at);
		sorted[at].value = at % 10;
	}
	puts("the array is filled");
	fflush(stdout);
	for (at = sum = 0; at < QUESTIONS; at++)
		sum += by_halving(key_of(rand() % RECORDS));
	printf("by halving %d\n", sum);
	fflush(stdout);
	root = build();
	puts("the tree is built");
	fflush(stdout);
	srand(1);
	for (at = sum = 0; at < QUESTIONS; at++)
		sum += by_tree(root, key_of(rand() % RECORDS));
	printf("by the tree %d\n", sum);
	return 0;
}
