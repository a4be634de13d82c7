/* A factorial with as many digits as it has, and the greatest common divisor. */
#include <stdio.h>

#define DIGITS 80

static unsigned char digit[DIGITS];
static int digits = 1;

static unsigned gcd(unsigned one, unsigned other)
{
	return other == 0 ? one : gcd(other, one % other);
}

int main(void)
{
	int n, at, carry;

	digit[0] = 1;
	for (n = 2; n <= 40; n++) {
		for (carry = at = 0; at < digits || carry; at++) {
			carry += digit[at] * n;
			digit[at] = carry % 10;
			carry /= 10;
			if (at >= digits)
				digits = at + 1;
		}
		if (n % 10 == 0) {
			printf("%d! = ", n);
			for (at = digits - 1; at >= 0; at--)
				putchar('0' + digit[at]);
			putchar('\n');
		}
	}
	printf("%u %u %u\n", gcd(1071, 462), gcd(4000000000u, 3000000000u), gcd(17, 0));
	return 0;
}
