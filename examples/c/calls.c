/* A text of 160 functions, each about a page long, that are called four times: all of them round and round, and ten at a
   time. Of each function the first few instructions alone are carried out. */

#include <stdio.h>

#define FUNCTIONS 160
#define ROUNDS 4

#define FOUR(what) what what what what
#define LONG(what) FOUR(FOUR(FOUR(what))) FOUR(what)

/* for a number below 0, which none is, there would be much to do */
#define FUNCTION(name) static int name(int number) \
{ \
	if (number >= 0) \
		return (number * 5 + 1) & 0xffff; \
	LONG(number = number * 3 ^ (number << 7);) \
	return number; \
}

#define TEN(name) FUNCTION(name##0) FUNCTION(name##1) FUNCTION(name##2) FUNCTION(name##3) FUNCTION(name##4) \
	FUNCTION(name##5) FUNCTION(name##6) FUNCTION(name##7) FUNCTION(name##8) FUNCTION(name##9)

TEN(a) TEN(b) TEN(c) TEN(d) TEN(e) TEN(f) TEN(g) TEN(h) TEN(i) TEN(j) TEN(k) TEN(l) TEN(m) TEN(n) TEN(o) TEN(p)

#define NAMES(name) name##0, name##1, name##2, name##3, name##4, name##5, name##6, name##7, name##8, name##9,

static int (*functions[FUNCTIONS])(int) = {
	NAMES(a) NAMES(b) NAMES(c) NAMES(d) NAMES(e) NAMES(f) NAMES(g) NAMES(h)
	NAMES(i) NAMES(j) NAMES(k) NAMES(l) NAMES(m) NAMES(n) NAMES(o) NAMES(p)
};

/* calls the functions four times round, so many of them at a time */
static int call(int many)
{
	int first, round, at, number = 1;

	for (first = 0; first < FUNCTIONS; first += many)
		for (round = 0; round < ROUNDS; round++)
			for (at = first; at < first + many; at++)
				number = functions[at](number);
	return number;
}

int main(void)
{
	printf("all four times round %d\n", call(FUNCTIONS));
	fflush(stdout);
	printf("ten at a time four times round %d\n", call(10));
	return 0;
}
