/* Numbers of each size: what the compiler's text needs that the machine hasn't, and is said otherwise. */

#include <limits.h>
#include <stdio.h>

static signed char bytes[] = { 0, 1, -1, 127, -128, 77 };
static unsigned char octets[] = { 0, 1, 255, 127, 128, 200 };
static short words[] = { 0, 1, -1, 32767, -32768, 300 };
static unsigned short halves[] = { 0, 1, 65535, 32767, 32768, 40000 };
static int longs[] = { 0, 1, -1, INT_MAX, INT_MIN, 123456789 };
static unsigned unsigneds[] = { 0, 1, UINT_MAX, 2147483647u, 2147483648u, 4000000000u };

struct fields {
	unsigned first : 3;
	int second : 7;
	unsigned third : 13;
};

static void widths(void)
{
	int at, number;
	signed char byte;
	short word;

	for (at = 0; at < 6; at++) {
		printf("%d %d %d %d %d %u\n", bytes[at], octets[at], words[at], halves[at], longs[at], unsigneds[at]);
		number = longs[at];
		byte = number;
		word = number;
		printf("%d %d %d %d\n", byte, word, (unsigned char)number, (unsigned short)number);
		byte = -bytes[at];
		word = -words[at];
		printf("%d %d %d %d\n", byte, word, ~bytes[at], ~halves[at]);
		bytes[at] += 3;
		words[at] -= 3;
		octets[at] ^= 0x81;
		halves[at] |= 0x4001;
		if ((halves[at] & 0x8000) != 0)
			halves[at]++;
		if (octets[at] & 0x80)
			octets[at]--;
		printf("%d %d %d %d\n", bytes[at], words[at], octets[at], halves[at]);
	}
}

static void shifts(void)
{
	int at, by;

	for (at = 0; at < 6; at++)
		for (by = 0; by < 32; by += 5) {
			printf("%d %x ", longs[at] >> by, unsigneds[at] >> by);
			printf("%x %x %x\n", unsigneds[at] << by, halves[at] >> (by & 15), (unsigned)octets[at] >> (by & 7));
		}
	printf("%x %x %d %d\n", unsigneds[5] >> 3, unsigneds[5] >> 31, longs[4] >> 31, bytes[4] >> 2);
}

static void quotients(void)
{
	int one, other;

	for (one = 0; one < 6; one++)
		for (other = 1; other < 6; other++) {
			printf("%u %u ", unsigneds[one] / unsigneds[other], unsigneds[one] % unsigneds[other]);
			/* the host doesn't divide the least number by -1 */
			if (words[other] != -1)
				printf("%d %d ", longs[one] / words[other], longs[one] % words[other]);
			printf("%d %d\n", octets[one] / (halves[other] | 1), octets[one] % 7);
		}
}

static void fields(void)
{
	struct fields some = { 5, -3, 4000 };
	int at;

	for (at = 0; at < 6; at++) {
		some.first += at;
		some.second -= 9 * at;
		some.third ^= longs[at];
		printf("%d %d %d\n", some.first, some.second, some.third);
	}
}

static int choose(int number)
{
	switch (number) {
	case -1:
		return 4;
	case 0:
	case 1:
		return 7;
	case 70000:
		return 9;
	case 300:
		number++;
	}
	return number * 2;
}

int main(void)
{
	int (*chosen)(int) = choose;

	widths();
	shifts();
	quotients();
	fields();
	printf("%d %d %d %d %d\n", chosen(-1), chosen(1), chosen(70000), chosen(300), chosen(44));
	printf("%d %d\n", unsigneds[4] > 5, longs[4] > 5);
	return 200;
}
