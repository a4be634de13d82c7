/* Structures of all lengths are copied, given and returned, and what lies behind them stays. */

#include <stdio.h>

#define STRUCTURE(length) \
struct s##length { \
	char text[length]; \
}; \
static struct { \
	struct s##length one; \
	char behind[4]; \
} pair##length; \
static struct s##length give##length(struct s##length given, int more) \
{ \
	given.text[0] += more; \
	given.text[length - 1] += more; \
	return given; \
} \
static void try##length(void) \
{ \
	struct s##length other; \
	int at, sum = 0; \
	for (at = 0; at < length; at++) \
		other.text[at] = at + length; \
	for (at = 0; at < 4; at++) \
		pair##length.behind[at] = 50 + at; \
	pair##length.one = other; \
	for (at = 0; at < length; at++) \
		sum = sum * 3 + pair##length.one.text[at]; \
	other = give##length(pair##length.one, 5); \
	for (at = 0; at < length; at++) \
		sum = sum * 3 + other.text[at]; \
	for (at = 0; at < 4; at++) \
		sum = sum * 3 + pair##length.behind[at]; \
	printf("%d: %d\n", length, sum); \
}

STRUCTURE(1)
STRUCTURE(2)
STRUCTURE(3)
STRUCTURE(4)
STRUCTURE(5)
STRUCTURE(7)
STRUCTURE(8)
STRUCTURE(12)
STRUCTURE(31)
STRUCTURE(33)
STRUCTURE(127)

int main(void)
{
	try1();
	try2();
	try3();
	try4();
	try5();
	try7();
	try8();
	try12();
	try31();
	try33();
	try127();
	return 0;
}
