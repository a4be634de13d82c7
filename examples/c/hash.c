/* A hash table of two sizes, with the same 900 keys and the same 3,000 questions: one of 1,024 slots, which is nearly full,
   and one of 10,240, which is nearly empty. A slot that is taken sends the search to the next one. */

#include <stdio.h>
#include <stdlib.h>
#include <string.h>

#define KEYS 900
#define QUESTIONS 3000
#define LARGEST 10240

struct slot {
	int key;
	int value;
	int spare[2];
};

static struct slot table[LARGEST];
static int keys[KEYS];
static int probes;

static struct slot *find(int key, int slots)
{
	int at = (key & 0xffffff) * 37 % slots;

	for (;;) {
		probes++;
		if (table[at].key == key || table[at].key == 0)
			return &table[at];
		if (++at == slots)
			at = 0;
	}
}

static void try(int slots)
{
	struct slot *slot;
	int at, found = 0;

	memset(table, 0, slots * sizeof table[0]);
	for (at = 0; at < KEYS; at++) {
		slot = find(keys[at], slots);
		slot->key = keys[at];
		slot->value = at;
	}
	printf("%d slots are filled\n", slots);
	fflush(stdout);
	probes = 0;
	srand(7);
	for (at = 0; at < QUESTIONS; at++)
		found += find(keys[rand() % KEYS], slots)->value & 1;
	printf("%d slots: %d odd values in %d probes\n", slots, found, probes);
	fflush(stdout);
}

int main(void)
{
	int at;

	for (at = 0; at < KEYS; at++)
		keys[at] = 1 + at + rand() * 1000;
	try(1024);
	try(LARGEST);
	return 0;
}
