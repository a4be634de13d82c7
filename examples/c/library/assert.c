/* The end of a program in which something doesn't hold. */

#include <assert.h>
#include <stdio.h>
#include <stdlib.h>

void __assert(const char *condition, const char *file, int line)
{
	fflush(stdout);
	fprintf(stderr, "%s:%d: assertion `%s' failed\n", file, line, condition);
	abort();
}
