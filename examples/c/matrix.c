/* A matrix by rows and by columns. A row has 1,024 bytes, as a page has, and there are 160 of them. */

#include <stdio.h>

#define ROWS 160
#define COLUMNS 64

struct cell {
	int value;
	int spare[3];
};

static struct cell matrix[ROWS][COLUMNS];

static int sum_by_rows(void)
{
	struct cell *cell;
	int row, sum = 0;

	for (row = 0; row < ROWS; row++)
		for (cell = matrix[row]; cell < matrix[row] + COLUMNS; cell++)
			sum += cell->value;
	return sum;
}

static int sum_by_columns(void)
{
	struct cell *cell;
	int column, sum = 0;

	for (column = 0; column < COLUMNS; column++)
		for (cell = matrix[0] + column; cell < matrix[ROWS]; cell += COLUMNS)
			sum += cell->value;
	return sum;
}

int main(void)
{
	int row, column;

	for (row = 0; row < ROWS; row++)
		for (column = 0; column < COLUMNS; column++)
			matrix[row][column].value = row * column % 100;
	puts("filled");
	fflush(stdout);
	printf("by rows %d\n", sum_by_rows());
	fflush(stdout);
	printf("by columns %d\n", sum_by_columns());
	return 0;
}
