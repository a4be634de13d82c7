/* A file system in an array of blocks: a table of files, each a chain of blocks. */
#include <stdio.h>
#include <string.h>

#define BLOCKS 20
#define SIZE 8
#define FILES 4
#define END (-1)
#define FREE (-2)

struct file {
	char name[12];
	int first, bytes;
};

static struct file files[FILES];
static char blocks[BLOCKS][SIZE];
static int next[BLOCKS];

static int take(void)
{
	int block;

	for (block = 0; block < BLOCKS; block++)
		if (next[block] == FREE) {
			next[block] = END;
			return block;
		}
	return END;
}

static struct file *find(const char *name)
{
	int at;

	for (at = 0; at < FILES; at++)
		if (strcmp(files[at].name, name) == 0)
			return &files[at];
	return NULL;
}

static int put(const char *name, const char *text)
{
	struct file *file = find("");
	int *link, length = strlen(text), piece;

	if (!file || strlen(name) >= sizeof file->name)
		return -1;
	strncpy(file->name, name, sizeof file->name);
	file->bytes = 0;
	file->first = END;
	for (link = &file->first; length > 0; length -= piece, text += piece) {
		piece = length < SIZE ? length : SIZE;
		*link = take();
		if (*link == END)
			return file->bytes;
		memcpy(blocks[*link], text, piece);
		file->bytes += piece;
		link = &next[*link];
	}
	return file->bytes;
}

static void drop(const char *name)
{
	struct file *file = find(name);
	int block, after;

	for (block = file->first; block != END; block = after) {
		after = next[block];
		next[block] = FREE;
	}
	file->name[0] = 0;
}

static void show(const char *name)
{
	struct file *file = find(name);
	int block, left;

	if (!file) {
		printf("%s: there is no such file\n", name);
		return;
	}
	printf("%s:", name);
	for (block = file->first; block != END; block = next[block])
		printf(" %d", block);
	printf(": ");
	for (block = file->first, left = file->bytes; block != END; block = next[block], left -= SIZE)
		printf("%.*s", left < SIZE ? left : SIZE, blocks[block]);
	putchar('\n');
}

int main(void)
{
	int block;

	for (block = 0; block < BLOCKS; block++)
		next[block] = FREE;
	put("motd", "welcome to a small file system");
	put("notes", "remember the milk");
	put("list", "one two three four");
	drop("notes");
	printf("%d bytes\n", put("letter", "this one lies where another was, and goes on behind the rest"));
	show("motd");
	show("notes");
	show("letter");
	printf("%d of %d bytes\n", put("rest", "what is left is too little for a text as long as this one is"), 60);
	return 0;
}
