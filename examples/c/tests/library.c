/* The library: printing, strings, memory, sorting. */

#include <stdio.h>
#include <stdlib.h>
#include <string.h>
#include <unistd.h>

static int compared;

static int by_number(const void *one, const void *other)
{
	compared++;
	return *(const int *)one - *(const int *)other;
}

struct named {
	char name[7];
	short rank;
};

static int by_name(const void *one, const void *other)
{
	int order = strcmp(((const struct named *)one)->name, ((const struct named *)other)->name);

	return order != 0 ? order : ((const struct named *)one)->rank - ((const struct named *)other)->rank;
}

static void printing(void)
{
	printf("%d %d %d %u %x %c%c %s %%\n", 0, -1, -2147483647 - 1, 4294967295u, 0xbeef1234, 'o', 'k', "text");
	printf("[%6d] [%-6d] [%06d] [%06d] [%6u] [%8x] [%08x]\n", 42, 42, 42, -42, 42, 0xabc, 0xabc);
	printf("[%8s] [%-8s] [%3s] [%3c] [%-3c]\n", "right", "left", "longer", 'c', 'c');
	printf("%d characters\n", printf("twelve: %04d\n", -7));
	puts("a line");
	putchar('!');
	putchar('\n');
}

static void sorting(void)
{
	static int numbers[300];
	static struct named names[60];
	int at, way, count, wrong = 0;

	for (way = 0; way < 4; way++)
		for (count = 0; count < 60; count += 7) {
			for (at = 0; at < count; at++)
				numbers[at] = way == 0 ? rand() : way == 1 ? at : way == 2 ? -at : rand() % 3;
			qsort(numbers, count, sizeof numbers[0], by_number);
			for (at = 1; at < count; at++)
				wrong += numbers[at - 1] > numbers[at];
		}
	for (at = 0; at < 300; at++)
		numbers[at] = rand();
	qsort(numbers, 300, sizeof numbers[0], by_number);
	for (at = 1; at < 300; at++)
		wrong += numbers[at - 1] > numbers[at];
	printf("%d wrong, %d\n", wrong, numbers[150]);
	for (at = 0; at < 60; at++) {
		strcpy(names[at].name, "n");
		names[at].name[1] = 'a' + rand() % 20;
		names[at].name[2] = 0;
		names[at].rank = at;
	}
	qsort(names, 60, sizeof names[0], by_name);
	for (at = 0; at < 60; at++)
		printf("%s%d ", names[at].name, names[at].rank);
	putchar('\n');
}

static void strings(void)
{
	char text[64], other[64];
	int at;

	strcpy(text, "some");
	strcat(text, " words");
	printf("%s %d %d %d\n", text, (int)strlen(text), strcmp(text, "some") > 0, strcmp("a", "b") < 0);
	printf("%d %d %d\n", strncmp("abcd", "abxy", 2), strncmp("abcd", "abxy", 3) < 0, strcmp("", ""));
	printf("%s %d %d\n", strchr(text, 'w'), strchr(text, 'z') == NULL, strchr(text, 0) == text + 10);
	for (at = 0; at < 64; at++)
		other[at] = at;
	memmove(other + 3, other, 30);
	memmove(other + 20, other + 31, 21);
	memcpy(text, other, 63);
	memset(text + 50, 'x', 11);
	for (at = 0; at < 63; at++)
		printf("%d ", text[at]);
	printf("%d %d\n", memcmp(text, other, 50), memcmp(text, other, 60) != 0);
}

/* takes and gives back blocks in disorder, and looks whether any lies over another one */
static void memory(void)
{
	static char *blocks[40];
	static int lengths[40];
	int round, which, at, wrong = 0;

	for (round = 0; round < 400; round++) {
		which = rand() % 40;
		if (blocks[which] == NULL) {
			lengths[which] = 1 + rand() % 500;
			blocks[which] = malloc(lengths[which]);
			if (blocks[which] == NULL || ((size_t)blocks[which] & 7) != 0)
				wrong++;
			memset(blocks[which], which, lengths[which]);
		} else {
			for (at = 0; at < lengths[which]; at += 9)
				wrong += blocks[which][at] != which;
			wrong += blocks[which][lengths[which] - 1] != which;
			free(blocks[which]);
			blocks[which] = NULL;
		}
	}
	free(NULL);
	printf("%d wrong\n", wrong);
}

int main(int argc, char **argv)
{
	char *before = sbrk(0);

	printf("%d %d\n", argc, argv[argc] == NULL);
	printing();
	sorting();
	strings();
	memory();
	printf("%d\n", sbrk(0) != before);
	return 3;
}
