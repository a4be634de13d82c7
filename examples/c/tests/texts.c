/* Characters, texts, numbers in texts, and memory. */

#include <ctype.h>
#include <errno.h>
#include <limits.h>
#include <stdio.h>
#include <stdlib.h>
#include <string.h>

static void characters(void)
{
	int it;

	for (it = -1; it < 128; it++)
		printf("%d:%d%d%d%d%d%d%d%d%d%d%d%d %d %d%c", it, isalnum(it) != 0, isalpha(it) != 0, isblank(it) != 0, iscntrl(it) != 0,
		       isdigit(it) != 0, isgraph(it) != 0, islower(it) != 0, isprint(it) != 0, ispunct(it) != 0, isspace(it) != 0, isupper(it) != 0,
		       isxdigit(it) != 0, tolower(it), toupper(it), it % 4 == 3 ? '\n' : ' ');
}

static void number(const char *text, int base)
{
	char *end;
	long value;

	errno = 0;
	value = strtol(text, &end, base);
	printf("%s by %d: %ld, %d, %s;", text, base, value == LONG_MAX ? 1L : value == LONG_MIN ? -1L : value, errno == ERANGE, end);
	errno = 0;
	value = strtoul(text, &end, base) == ULONG_MAX;
	printf(" %ld, %d, %s; %d\n", value, errno == ERANGE, end, atoi("12x") + atoi(" -7") + atoi("") + (int)atol("+30"));
}

static void found(const char *text, const char *wanted)
{
	char *at = strstr(text, wanted);

	printf("%s in %s: %d\n", wanted, text, at ? (int)(at - text) : -1);
}

static void memory(void)
{
	int *many = calloc(50, sizeof *many), sum = 0, at;
	char *text = malloc(6), *other;

	for (at = 0; at < 50; at++)
		sum += many[at]++;
	printf("%d zeros\n", sum);
	many = realloc(many, 4000 * sizeof *many);
	for (at = 50; at < 4000; at++)
		many[at] = at;
	for (at = 0; at < 4000; at++)
		sum += many[at];
	many = realloc(many, 10 * sizeof *many);
	printf("%d %d\n", sum, many[9]);
	strcpy(text, "moved");
	other = realloc(text, 5000);
	printf("%s %d\n", other, realloc(NULL, 10) != NULL);
	free(other);
	free(many);
	printf("%d %d\n", malloc(-1u / 2) != NULL && sizeof(size_t) == 4, calloc((size_t)-1 / 2, 4) != NULL);
}

int main(void)
{
	static const char *const texts[] = { "0", "  42rest", "-17", "+0x1Fg", "0x", "077", "08", "z9", "", "-", "99999999999999999999", "-99999999999999999999", "21474", "-12345" };
	static const int bases[] = { 10, 0, 16, 8, 36 };
	char place[12];
	unsigned at, base;

	characters();
	for (at = 0; at < sizeof texts / sizeof texts[0]; at++)
		for (base = 0; base < 5; base++)
			number(texts[at], bases[base]);
	found("hello world", "o w");
	found("hello world", "");
	found("aaab", "aab");
	found("short", "shorter");
	printf("%s %d\n", (char *)memchr("hello", 'l', 5), memchr("hello", 'o', 4) == NULL);
	printf("%s %d\n", strrchr("a/b/c", '/'), strrchr("abc", 'x') == NULL);
	strncpy(place, "longer than that", 6);
	place[6] = 0;
	printf("%s\n", strncpy(place, "ab", sizeof place));
	printf("%d %d\n", place[6], place[11]);
	printf("%d %ld\n", abs(-5), labs(7L));
	memory();
	return 0;
}
