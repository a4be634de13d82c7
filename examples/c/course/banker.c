/* The banker's algorithm: whether each process can get what it may still want, in some order. */
#include <stdio.h>
#include <string.h>

#define PROCESSES 5
#define KINDS 3

static int free_ones[KINDS] = { 3, 3, 2 };
static int held[PROCESSES][KINDS] = { { 0, 1, 0 }, { 2, 0, 0 }, { 3, 0, 2 }, { 2, 1, 1 }, { 0, 0, 2 } };
static const int most[PROCESSES][KINDS] = { { 7, 5, 3 }, { 3, 2, 2 }, { 9, 0, 2 }, { 2, 2, 2 }, { 4, 3, 3 } };

static int fits(const int *wanted, const int *there)
{
	int kind;

	for (kind = 0; kind < KINDS; kind++)
		if (wanted[kind] > there[kind])
			return 0;
	return 1;
}

static int is_safe(int tell)
{
	int there[KINDS], done[PROCESSES] = { 0 }, wanted[KINDS], process, kind, found = 1, many = 0;

	memcpy(there, free_ones, sizeof there);
	while (found) {
		found = 0;
		for (process = 0; process < PROCESSES; process++) {
			for (kind = 0; kind < KINDS; kind++)
				wanted[kind] = most[process][kind] - held[process][kind];
			if (done[process] || !fits(wanted, there))
				continue;
			for (kind = 0; kind < KINDS; kind++)
				there[kind] += held[process][kind];
			if (tell)
				printf(" %d", process);
			done[process] = found = 1;
			many++;
		}
	}
	return many == PROCESSES;
}

static void ask(int process, int a, int b, int c)
{
	int asked[KINDS], kind, sign;

	asked[0] = a, asked[1] = b, asked[2] = c;
	printf("process %d asks for %d %d %d: ", process, a, b, c);
	if (!fits(asked, free_ones)) {
		puts("it waits");
		return;
	}
	for (sign = 1; sign >= -1; sign -= 2) {
		for (kind = 0; kind < KINDS; kind++) {
			held[process][kind] += sign * asked[kind];
			free_ones[kind] -= sign * asked[kind];
		}
		if (sign == 1 && is_safe(0)) {
			puts("granted");
			return;
		}
	}
	puts("refused, since that isn't safe");
}

int main(void)
{
	printf("an order:");
	printf(is_safe(1) ? "\n" : " none\n");
	ask(1, 1, 0, 2);
	ask(4, 3, 3, 0);
	ask(0, 0, 2, 0);
	ask(3, 0, 1, 0);
	return 0;
}
