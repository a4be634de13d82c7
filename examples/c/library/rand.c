/* Numbers that look like chance: x' = (1,103,515,245 x + 12,345) mod 2^31, beginning with 1, of which bits 30 to 16 are
   given. */

#include <stdlib.h>

static unsigned state = 1;

void srand(unsigned seed)
{
	state = seed;
}

int rand(void)
{
	state = (state * 1103515245 + 12345) & 0x7fffffff;
	return state >> 16;
}
