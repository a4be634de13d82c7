/* The older names of strings and memory, and those that are the same but for the size of their letters. */

#include <ctype.h>
#include <string.h>
#include <strings.h>

int strncasecmp(const char *one, const char *other, size_t most)
{
	for (; most > 0; most--, one++, other++)
		if (tolower(*one) != tolower(*other) || *one == 0)
			return tolower(*(const unsigned char *)one) - tolower(*(const unsigned char *)other);
	return 0;
}

int strcasecmp(const char *one, const char *other)
{
	return strncasecmp(one, other, (size_t)-1);
}

char *index(const char *text, int wanted)
{
	return strchr(text, wanted);
}

char *rindex(const char *text, int wanted)
{
	return strrchr(text, wanted);
}

void bzero(void *to, size_t bytes)
{
	memset(to, 0, bytes);
}

void bcopy(const void *from, void *to, size_t bytes)
{
	memmove(to, from, bytes);
}

int bcmp(const void *one, const void *other, size_t bytes)
{
	return memcmp(one, other, bytes);
}
