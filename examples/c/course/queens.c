/* In how many ways eight queens stand on a board so that none attacks another. */
#include <stdio.h>

#define SIZE 8

static int column[SIZE];
static int ways, tried;

static int is_safe(int row, int at)
{
	int above;

	for (above = 0; above < row; above++)
		if (column[above] == at || column[above] - at == row - above || at - column[above] == row - above)
			return 0;
	return 1;
}

static void place(int row)
{
	int at;

	if (row == SIZE) {
		ways++;
		return;
	}
	for (at = 0; at < SIZE && ways < 12; at++) {
		tried++;
		if (is_safe(row, at)) {
			column[row] = at;
			place(row + 1);
		}
	}
}

int main(void)
{
	int row, at;

	place(0);
	printf("the first %d ways, %d places tried; the last one:\n", ways, tried);
	for (row = 0; row < SIZE; row++) {
		for (at = 0; at < SIZE; at++)
			putchar(column[row] == at ? 'Q' : '.');
		putchar('\n');
	}
	return 0;
}
