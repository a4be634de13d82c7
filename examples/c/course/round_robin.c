/* A scheduler that gives each process a quantum in turn; when each ends, and how long it waited. */
#include <stdio.h>

struct process {
	const char *name;
	int arrives, needs, left, ends;
};

static struct process all[] = {
	{ "editor", 0, 9 }, { "compiler", 1, 14 }, { "mail", 2, 3 }, { "shell", 4, 1 }, { "backup", 6, 20 },
};

#define MANY ((int)(sizeof all / sizeof all[0]))

static void simulate(int quantum)
{
	int queue[64], first = 0, last = 0, now = 0, at, next = 0, ended = 0, slice, wait = 0;

	for (at = 0; at < MANY; at++)
		all[at].left = all[at].needs;
	printf("quantum %d:", quantum);
	while (ended < MANY) {
		while (next < MANY && all[next].arrives <= now)
			queue[last++ % 64] = next++;
		if (first == last) {
			now++;
			continue;
		}
		at = queue[first++ % 64];
		slice = all[at].left < quantum ? all[at].left : quantum;
		now += slice;
		all[at].left -= slice;
		while (next < MANY && all[next].arrives <= now)
			queue[last++ % 64] = next++;
		if (all[at].left > 0)
			queue[last++ % 64] = at;
		else {
			all[at].ends = now;
			wait += now - all[at].arrives - all[at].needs;
			ended++;
			printf(" %s %d", all[at].name, now);
		}
	}
	printf("; waited %d.%02d in the mean\n", wait / MANY, wait * 100 / MANY % 100);
}

int main(void)
{
	int quantum;

	for (quantum = 1; quantum <= 16; quantum *= 2)
		simulate(quantum);
	return 0;
}
