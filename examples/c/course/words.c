/* Words of a text are cut, counted in a table of lists, and told by how many there are. */
#include <ctype.h>
#include <stdio.h>
#include <stdlib.h>
#include <string.h>

#define SLOTS 17

struct word {
	char *text;
	int many;
	struct word *next;
};

static struct word *slots[SLOTS];
static int words;

static unsigned slot_of(const char *text)
{
	unsigned sum = 0;

	while (*text)
		sum = sum * 31 + (unsigned char)*text++;
	return sum % SLOTS;
}

static void count(char *text)
{
	struct word *word;
	char *at;
	unsigned slot;

	for (at = text; *at; at++)
		*at = tolower((unsigned char)*at);
	slot = slot_of(text);
	for (word = slots[slot]; word; word = word->next)
		if (strcmp(word->text, text) == 0) {
			word->many++;
			return;
		}
	word = malloc(sizeof *word);
	word->text = strdup(text);
	word->many = 1;
	word->next = slots[slot];
	slots[slot] = word;
	words++;
}

static int by_count(const void *one, const void *other)
{
	const struct word *first = *(struct word *const *)one, *second = *(struct word *const *)other;

	return first->many != second->many ? second->many - first->many : strcmp(first->text, second->text);
}

int main(void)
{
	char text[] = "A page that is wanted and isn't there is a fault; a fault brings the page in. What is there is there, "
		"and a page that nobody wants may leave: the page that nobody wants is the one to leave.";
	struct word **all, *word;
	char *at;
	int slot, many = 0;

	for (at = strtok(text, " ,.;:"); at; at = strtok(NULL, " ,.;:"))
		count(at);
	all = calloc(words, sizeof *all);
	for (slot = 0; slot < SLOTS; slot++)
		for (word = slots[slot]; word; word = word->next)
			all[many++] = word;
	qsort(all, many, sizeof *all, by_count);
	for (slot = 0; slot < many; slot++)
		printf("%3d %s\n", all[slot]->many, all[slot]->text);
	while (many > 0) {
		free(all[--many]->text);
		free(all[many]);
	}
	free(all);
	return 0;
}
