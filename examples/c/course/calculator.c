/* A calculator: infix by recursive descent, and the same in the other notation by a stack. */
#include <ctype.h>
#include <stdio.h>
#include <stdlib.h>
#include <string.h>

static const char *at;

static long sum(void);

static long factor(void)
{
	long value;

	while (isspace((unsigned char)*at))
		at++;
	if (*at == '-') {
		at++;
		return -factor();
	}
	if (*at == '(') {
		at++;
		value = sum();
		at += strspn(at, " )");
		return value;
	}
	return strtol(at, (char **)&at, 10);
}

static long product(void)
{
	long value = factor(), by;

	for (;;) {
		at += strspn(at, " ");
		if (*at != '*' && *at != '/' && *at != '%')
			return value;
		switch (*at++) {
		case '*':
			value *= factor();
			break;
		case '/':
			by = factor();
			value = by ? value / by : 0;
			break;
		default:
			by = factor();
			value = by ? value % by : 0;
		}
	}
}

static long sum(void)
{
	long value = product();

	for (;;) {
		at += strspn(at, " ");
		if (*at == '+')
			at++, value += product();
		else if (*at == '-')
			at++, value -= product();
		else
			return value;
	}
}

static long by_stack(const char *text)
{
	long stack[16];
	int held = 0;
	char *copy = strdup(text), *rest, *word;

	for (word = strtok_r(copy, " ", &rest); word; word = strtok_r(NULL, " ", &rest))
		if (isdigit((unsigned char)word[0]))
			stack[held++] = atol(word);
		else {
			long other = stack[--held];

			switch (word[0]) {
			case '+': stack[held - 1] += other; break;
			case '-': stack[held - 1] -= other; break;
			case '*': stack[held - 1] *= other; break;
			case '/': stack[held - 1] /= other; break;
			}
		}
	free(copy);
	return stack[0];
}

int main(void)
{
	static const char *const texts[] = { "1 + 2 * 3", "(1 + 2) * 3", "-7 / 2", "-(7 % 4) * -10", "2 * (3 + (4 - 5)) - 60/5/2", "1000000 * 1000" };
	int number;

	for (number = 0; number < 6; number++) {
		at = texts[number];
		printf("%s = %ld\n", texts[number], sum());
	}
	printf("%ld %ld\n", by_stack("3 4 + 2 *"), by_stack("100 7 / 2 3 * -"));
	return 0;
}
