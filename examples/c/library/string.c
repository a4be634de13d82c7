/* Strings and memory. */

#include <stdlib.h>
#include <string.h>

size_t strlen(const char *text)
{
	const char *at = text;

	while (*at)
		at++;
	return at - text;
}

char *strcpy(char *to, const char *from)
{
	char *at = to;

	while ((*at++ = *from++) != 0)
		;
	return to;
}

char *strncpy(char *to, const char *from, size_t most)
{
	char *at = to;

	for (; most > 0 && *from; most--)
		*at++ = *from++;
	for (; most > 0; most--)
		*at++ = 0;
	return to;
}

char *strcat(char *to, const char *from)
{
	strcpy(to + strlen(to), from);
	return to;
}

char *strncat(char *to, const char *from, size_t most)
{
	char *at = to + strlen(to);

	for (; most > 0 && *from; most--)
		*at++ = *from++;
	*at = 0;
	return to;
}

int strcmp(const char *one, const char *other)
{
	while (*one && *one == *other)
		one++, other++;
	return *(const unsigned char *)one - *(const unsigned char *)other;
}

int strncmp(const char *one, const char *other, size_t most)
{
	for (; most > 0; most--, one++, other++)
		if (*one != *other || *one == 0)
			return *(const unsigned char *)one - *(const unsigned char *)other;
	return 0;
}

char *strchr(const char *text, int wanted)
{
	for (; *text != (char)wanted; text++)
		if (*text == 0)
			return 0;
	return (char *)text;
}

char *strrchr(const char *text, int wanted)
{
	const char *found = 0;

	do
		if (*text == (char)wanted)
			found = text;
	while (*text++);
	return (char *)found;
}

char *strstr(const char *text, const char *wanted)
{
	size_t length = strlen(wanted);

	for (; strncmp(text, wanted, length) != 0; text++)
		if (*text == 0)
			return 0;
	return (char *)text;
}

/* how many bytes at the beginning are among these, or aren't */
static size_t span(const char *text, const char *set, int among)
{
	const char *at = text;

	while (*at && (strchr(set, *at) != 0) == among)
		at++;
	return at - text;
}

size_t strspn(const char *text, const char *accepted)
{
	return span(text, accepted, 1);
}

size_t strcspn(const char *text, const char *refused)
{
	return span(text, refused, 0);
}

char *strpbrk(const char *text, const char *wanted)
{
	text += strcspn(text, wanted);
	return *text ? (char *)text : 0;
}

size_t strnlen(const char *text, size_t most)
{
	size_t length = 0;

	while (length < most && text[length])
		length++;
	return length;
}

/* the next word of a text, whose end becomes a 0; what comes after it waits in `rest` */
char *strtok_r(char *text, const char *between, char **rest)
{
	if (text == 0)
		text = *rest;
	text += strspn(text, between);
	*rest = text + strcspn(text, between);
	if (*text == 0)
		return 0;
	if (**rest)
		*(*rest)++ = 0;
	return text;
}

char *strtok(char *text, const char *between)
{
	static char *rest;

	return strtok_r(text, between, &rest);
}

char *strndup(const char *text, size_t most)
{
	size_t length = strnlen(text, most);
	char *copy = malloc(length + 1);

	if (copy == 0)
		return 0;
	memcpy(copy, text, length);
	copy[length] = 0;
	return copy;
}

char *strdup(const char *text)
{
	return strndup(text, strlen(text));
}

void *memchr(const void *bytes, int wanted, size_t count)
{
	const unsigned char *at = bytes;

	for (; count > 0; count--, at++)
		if (*at == (unsigned char)wanted)
			return (void *)at;
	return 0;
}

void *memcpy(void *to, const void *from, size_t bytes)
{
	char *target = to;
	const char *source = from;

	for (; bytes >= 4; bytes -= 4, target += 4, source += 4)
		*(int *)target = *(const int *)source;
	for (; bytes > 0; bytes--)
		*target++ = *source++;
	return to;
}

void *memmove(void *to, const void *from, size_t bytes)
{
	char *target = to;
	const char *source = from;

	if (target <= source)
		while (bytes-- > 0)
			*target++ = *source++;
	else
		while (bytes-- > 0)
			target[bytes] = source[bytes];
	return to;
}

void *memset(void *to, int octet, size_t bytes)
{
	char *target = to;
	int word = octet & 255;

	word |= word << 8;
	word |= word << 16;
	for (; bytes >= 4; bytes -= 4, target += 4)
		*(int *)target = word;
	for (; bytes > 0; bytes--)
		*target++ = octet;
	return to;
}

int memcmp(const void *one, const void *other, size_t bytes)
{
	const unsigned char *first = one, *second = other;

	for (; bytes > 0; bytes--, first++, second++)
		if (*first != *second)
			return *first - *second;
	return 0;
}
