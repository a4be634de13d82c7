/* Memory by first fit. The free blocks are a list by rising addresses, and the first that is long enough is taken; where
   there is none the data grow by the call break. A block that is given back is joined with the free ones beside it. */

#include <errno.h>
#include <stdlib.h>
#include <string.h>
#include <unistd.h>

struct block {
	unsigned bytes;		/* with this header */
	struct block *next;	/* of a free block */
};

#define UNIT 8			/* lengths are multiples of it */
#define GROWTH 4096		/* the data grow by so much at least */
#define MOST (4096 * 1024)	/* the data have no more bytes */

static struct block *first;

/* a block of the end of the data, or 0 */
static struct block *grow(unsigned bytes)
{
	struct block *block;
	unsigned rest;

	rest = (unsigned)sbrk(0) & (UNIT - 1);
	if (rest != 0 && sbrk(UNIT - rest) == (void *)-1)
		return 0;
	if (bytes < GROWTH)
		bytes = GROWTH;
	block = sbrk(bytes);
	if (block == (void *)-1)
		return 0;
	block->bytes = bytes;
	return block;
}

void *malloc(size_t bytes)
{
	struct block **at, *block, *rest;

	if (bytes > MOST) {
		errno = ENOMEM;
		return 0;
	}
	bytes = (bytes + sizeof(struct block) + UNIT - 1) & ~(UNIT - 1);
	for (;;) {
		for (at = &first; *at != 0; at = &(*at)->next)
			if ((*at)->bytes >= bytes)
				break;
		if (*at != 0)
			break;
		block = grow(bytes);
		if (block == 0)
			return 0;
		free(block + 1);
	}
	block = *at;
	if (block->bytes >= bytes + 2 * UNIT) {
		rest = (struct block *)((char *)block + bytes);
		rest->bytes = block->bytes - bytes;
		rest->next = block->next;
		*at = rest;
		block->bytes = bytes;
	} else
		*at = block->next;
	return block + 1;
}

void free(void *memory)
{
	struct block *block, *before = 0, *behind;

	if (memory == 0)
		return;
	block = (struct block *)memory - 1;
	for (behind = first; behind != 0 && behind < block; behind = behind->next)
		before = behind;
	block->next = behind;
	if (behind != 0 && (char *)block + block->bytes == (char *)behind) {
		block->bytes += behind->bytes;
		block->next = behind->next;
	}
	if (before == 0)
		first = block;
	else if ((char *)before + before->bytes == (char *)block) {
		before->bytes += block->bytes;
		before->next = block->next;
	} else
		before->next = block;
}

/* memory of zeros */
void *calloc(size_t count, size_t bytes)
{
	void *memory;

	if (bytes != 0 && count > MOST / bytes) {
		errno = ENOMEM;
		return 0;
	}
	memory = malloc(count * bytes);
	if (memory != 0)
		memset(memory, 0, count * bytes);
	return memory;
}

/* the same bytes where there is room for so many; where there is none, the old memory stays */
void *realloc(void *memory, size_t bytes)
{
	struct block *block = (struct block *)memory - 1;
	size_t held;
	void *other;

	if (memory == 0)
		return malloc(bytes);
	held = block->bytes - sizeof(struct block);
	if (bytes <= held)
		return memory;
	other = malloc(bytes);
	if (other == 0)
		return 0;
	memcpy(other, memory, held);
	free(memory);
	return other;
}
