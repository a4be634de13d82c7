/* Numbers that stand in texts. */

#include <ctype.h>
#include <errno.h>
#include <limits.h>
#include <stdlib.h>

int abs(int number)
{
	return number < 0 ? -number : number;
}

long labs(long number)
{
	return number < 0 ? -number : number;
}

div_t div(int number, int by)
{
	div_t both;

	both.quot = number / by;
	both.rem = number % by;
	return both;
}

ldiv_t ldiv(long number, long by)
{
	ldiv_t both;

	both.quot = number / by;
	both.rem = number % by;
	return both;
}

/* the value of a digit, 36 of what is none */
static int digit(int character)
{
	if (isdigit(character))
		return character - '0';
	if (isalpha(character))
		return tolower(character) - 'a' + 10;
	return 36;
}

/* The number of a text without its sign, and whether it stands behind a minus. A number that 32 bits don't hold is
   UINT_MAX, and `over` says so. Where there is no number, `end` is the text itself. */
static unsigned magnitude(const char *text, char **end, int base, int *negative, int *over)
{
	const char *at = text, *first;
	unsigned number = 0, most;

	*negative = *over = 0;
	while (isspace(*at))
		at++;
	if (*at == '-' || *at == '+')
		*negative = *at++ == '-';
	if ((base == 0 || base == 16) && at[0] == '0' && (at[1] == 'x' || at[1] == 'X') && digit(at[2]) < 16) {
		at += 2;
		base = 16;
	}
	if (base == 0)
		base = *at == '0' ? 8 : 10;
	most = UINT_MAX / base;
	for (first = at; digit(*at) < base; at++) {
		if (number > most || number * base > UINT_MAX - digit(*at))
			*over = 1;
		number = number * base + digit(*at);
	}
	if (end)
		*end = (char *)(at == first ? text : at);
	return *over ? UINT_MAX : number;
}

long strtol(const char *text, char **end, int base)
{
	int negative, over;
	unsigned number = magnitude(text, end, base, &negative, &over);

	if (number > (unsigned)LONG_MAX + negative) {
		errno = ERANGE;
		return negative ? LONG_MIN : LONG_MAX;
	}
	return negative ? -number : number;
}

unsigned long strtoul(const char *text, char **end, int base)
{
	int negative, over;
	unsigned number = magnitude(text, end, base, &negative, &over);

	if (over) {
		errno = ERANGE;
		return ULONG_MAX;
	}
	return negative ? -number : number;
}

int atoi(const char *text)
{
	return strtol(text, 0, 10);
}

long atol(const char *text)
{
	return strtol(text, 0, 10);
}
