/* The end of the data, which the call break moves. */

#include <unistd.h>

extern char end[];
int __break(void *address);

static char *top = end;

int brk(void *address)
{
	if (__break(address) < 0)
		return -1;
	top = address;
	return 0;
}

/* moves the end by so many bytes; its old place, or (void *)-1 */
void *sbrk(int bytes)
{
	char *old = top;

	if (bytes != 0 && brk(old + bytes) < 0)
		return (void *)-1;
	return old;
}
