/* Quicksort and heapsort on the same 1,000 keys, which lie 160 bytes apart, on 157 pages. */

#include <stdio.h>
#include <stdlib.h>

#define COUNT 1000

struct record {
	int key;
	int spare[39];
};

static struct record records[COUNT];

static void fill(void)
{
	int at;

	srand(1);
	for (at = 0; at < COUNT; at++)
		records[at].key = rand();
}

static int is_sorted(void)
{
	int at;

	for (at = 1; at < COUNT; at++)
		if (records[at - 1].key > records[at].key)
			return 0;
	return 1;
}

static void swap(struct record *one, struct record *other)
{
	int key = one->key;

	one->key = other->key;
	other->key = key;
}

static void quicksort(struct record *low, struct record *high)
{
	struct record *left, *right;
	int middle;

	while (low < high) {
		left = low;
		right = high;
		middle = low[(high - low) >> 1].key;
		while (left <= right) {
			while (left->key < middle)
				left++;
			while (right->key > middle)
				right--;
			if (left <= right)
				swap(left++, right--);
		}
		quicksort(low, right);
		low = left;
	}
}

/* lets the key at `at` sink in the heap of the first `count` */
static void sink(int at, int count)
{
	int child;

	while ((child = 2 * at + 1) < count) {
		if (child + 1 < count && records[child + 1].key > records[child].key)
			child++;
		if (records[at].key >= records[child].key)
			return;
		swap(records + at, records + child);
		at = child;
	}
}

static void heapsort(void)
{
	int at;

	for (at = COUNT / 2 - 1; at >= 0; at--)
		sink(at, COUNT);
	for (at = COUNT - 1; at > 0; at--) {
		swap(records, records + at);
		sink(0, at);
	}
}

int main(void)
{
	fill();
	puts("filled");
	fflush(stdout);
	quicksort(records, records + COUNT - 1);
	printf("quicksort %d\n", is_sorted());
	fflush(stdout);
	fill();
	puts("filled again");
	fflush(stdout);
	heapsort();
	printf("heapsort %d\n", is_sorted());
	return 0;
}
