/* The sieve of Eratosthenes, one bit for a number. */
#include <stdint.h>
#include <stdio.h>
#include <string.h>

#define MOST 4000

static uint8_t bits[MOST / 8 + 1];

static int is_prime(unsigned n)
{
	return bits[n >> 3] >> (n & 7) & 1;
}

int main(void)
{
	unsigned n, multiple, many = 0, twins = 0;

	memset(bits, 0xff, sizeof bits);
	for (n = 2; n * n <= MOST; n++)
		if (is_prime(n))
			for (multiple = n * n; multiple <= MOST; multiple += n)
				bits[multiple >> 3] &= ~(1 << (multiple & 7));
	for (n = 2; n <= MOST; n++)
		if (is_prime(n)) {
			many++;
			if (n > 3 && is_prime(n - 2))
				twins++;
			if (n > MOST - 50)
				printf("%u ", n);
		}
	printf("\n%u primes up to %d, %u pairs of twins\n", many, MOST, twins);
	return 0;
}
