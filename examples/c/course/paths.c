/* Shortest paths: Dijkstra from one town, by a heap, and Floyd and Warshall between all. */
#include <limits.h>
#include <stdio.h>

#define TOWNS 7
#define FAR (INT_MAX / 2)

static const struct { int from, to, way; } roads[] = {
	{ 0, 1, 7 }, { 0, 3, 5 }, { 1, 2, 8 }, { 1, 3, 9 }, { 1, 4, 7 }, { 2, 4, 5 }, { 3, 4, 15 }, { 3, 5, 6 }, { 4, 5, 8 }, { 4, 6, 9 }, { 5, 6, 11 },
};
static int way[TOWNS][TOWNS];
static struct { int far, town; } heap[64];
static int held;

static void push(int far, int town)
{
	int at = held++, up;

	for (; at > 0 && heap[up = (at - 1) / 2].far > far; at = up)
		heap[at] = heap[up];
	heap[at].far = far;
	heap[at].town = town;
}

static int pop(int *far)
{
	int town = heap[0].town, at = 0, down;

	*far = heap[0].far;
	held--;
	while ((down = 2 * at + 1) < held) {
		if (down + 1 < held && heap[down + 1].far < heap[down].far)
			down++;
		if (heap[down].far >= heap[held].far)
			break;
		heap[at] = heap[down];
		at = down;
	}
	heap[at] = heap[held];
	return town;
}

int main(void)
{
	int far[TOWNS], from[TOWNS], town, other, by, length, wrong = 0;

	for (town = 0; town < TOWNS; town++) {
		far[town] = FAR;
		for (other = 0; other < TOWNS; other++)
			way[town][other] = town == other ? 0 : FAR;
	}
	for (by = 0; by < (int)(sizeof roads / sizeof roads[0]); by++)
		way[roads[by].from][roads[by].to] = way[roads[by].to][roads[by].from] = roads[by].way;
	far[0] = 0;
	from[0] = 0;
	push(0, 0);
	while (held > 0) {
		town = pop(&length);
		if (length > far[town])
			continue;
		for (other = 0; other < TOWNS; other++)
			if (far[town] + way[town][other] < far[other]) {
				far[other] = far[town] + way[town][other];
				from[other] = town;
				push(far[other], other);
			}
	}
	for (town = 0; town < TOWNS; town++) {
		printf("%c %2d:", 'A' + town, far[town]);
		for (other = town; other != 0; other = from[other])
			printf(" %c", 'A' + other);
		puts(" A");
	}
	for (by = 0; by < TOWNS; by++)
		for (town = 0; town < TOWNS; town++)
			for (other = 0; other < TOWNS; other++)
				if (way[town][by] + way[by][other] < way[town][other])
					way[town][other] = way[town][by] + way[by][other];
	for (town = 0; town < TOWNS; town++)
		wrong += way[0][town] != far[town];
	printf("%d wrong, from B to G %d\n", wrong, way[1][6]);
	return wrong;
}
