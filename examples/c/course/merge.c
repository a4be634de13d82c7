/* Merge sort of a linked list. */
#include <stdio.h>
#include <stdlib.h>

struct node {
	int value;
	struct node *next;
};

static int compared;

static struct node *merge(struct node *one, struct node *other)
{
	struct node *all = NULL, **last = &all;

	while (one && other) {
		struct node **least = one->value <= other->value ? &one : &other;

		compared++;
		*last = *least;
		last = &(*least)->next;
		*least = (*least)->next;
	}
	*last = one ? one : other;
	return all;
}

static struct node *sort(struct node *list)
{
	struct node *slow = list, *fast, *half;

	if (!list || !list->next)
		return list;
	for (fast = list->next; fast && fast->next; fast = fast->next->next)
		slow = slow->next;
	half = slow->next;
	slow->next = NULL;
	return merge(sort(list), sort(half));
}

int main(void)
{
	struct node *list = NULL, *node;
	unsigned seed = 2463534242u;
	int many, wrong = 0;

	for (many = 0; many < 300; many++) {
		seed ^= seed << 13;
		seed ^= seed >> 17;
		seed ^= seed << 5;
		node = malloc(sizeof *node);
		if (!node)
			return 1;
		node->value = seed % 1000;
		node->next = list;
		list = node;
	}
	list = sort(list);
	for (node = list, many = 0; node; node = node->next, many++) {
		if (node->next && node->next->value < node->value)
			wrong++;
		if (many % 30 == 0)
			printf("%d ", node->value);
	}
	printf("\n%d nodes, %d wrong, %d comparisons\n", many, wrong, compared);
	return wrong != 0;
}
