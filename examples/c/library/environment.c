/* A program is started with no environment. */

#include <stdlib.h>

char *getenv(const char *name)
{
	return 0;
}
