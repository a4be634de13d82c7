/* The game of life on a torus: a glider goes over the edge. */
#include <stdio.h>
#include <string.h>

#define SIZE 10

static char board[SIZE][SIZE + 1], next[SIZE][SIZE + 1];

static int around(int row, int column)
{
	int i, j, many = 0;

	for (i = -1; i <= 1; i++)
		for (j = -1; j <= 1; j++)
			if (i || j)
				many += board[(row + i + SIZE) % SIZE][(column + j + SIZE) % SIZE] == '#';
	return many;
}

static void step(void)
{
	int row, column, many;

	for (row = 0; row < SIZE; row++)
		for (column = 0; column < SIZE; column++) {
			many = around(row, column);
			next[row][column] = many == 3 || (many == 2 && board[row][column] == '#') ? '#' : '.';
		}
	memcpy(board, next, sizeof board);
}

int main(void)
{
	int row, steps;

	for (row = 0; row < SIZE; row++)
		memset(board[row], '.', SIZE);
	memcpy(board[0], ".#.", 3);
	memcpy(board[1], "..#", 3);
	memcpy(board[2], "###", 3);
	for (steps = 0; steps < 34; steps++)
		step();
	for (row = 0; row < SIZE; row++)
		puts(board[row]);
	return 0;
}
