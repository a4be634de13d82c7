/* What is packed when each thing is there once, by a table; and the longest common part of two texts. */
#include <stdio.h>
#include <string.h>

static const struct { const char *name; int weighs, worth; } things[] = {
	{ "map", 9, 150 }, { "compass", 13, 35 }, { "water", 153, 200 }, { "sandwich", 50, 160 }, { "glucose", 15, 60 }, { "tin", 68, 45 }, { "apple", 39, 40 },
};
#define MANY ((int)(sizeof things / sizeof things[0]))
#define MOST 200

static short best[MANY + 1][MOST + 1];

static int common(const char *one, const char *other, char *to)
{
	static unsigned char longest[32][32];
	int m = strlen(one), n = strlen(other), i, j, length;

	for (i = 1; i <= m; i++)
		for (j = 1; j <= n; j++)
			longest[i][j] = one[i - 1] == other[j - 1] ? longest[i - 1][j - 1] + 1
				: longest[i - 1][j] > longest[i][j - 1] ? longest[i - 1][j] : longest[i][j - 1];
	length = longest[m][n];
	to[length] = 0;
	for (i = m, j = n; i > 0 && j > 0;)
		if (one[i - 1] == other[j - 1]) {
			to[longest[i][j] - 1] = one[i - 1];
			i--, j--;
		} else if (longest[i - 1][j] >= longest[i][j - 1])
			i--;
		else
			j--;
	return length;
}

int main(void)
{
	int thing, room, taken;
	char text[32];

	for (thing = 0; thing < MANY; thing++)
		for (room = 0; room <= MOST; room++) {
			best[thing + 1][room] = best[thing][room];
			taken = room >= things[thing].weighs ? best[thing][room - things[thing].weighs] + things[thing].worth : 0;
			if (taken > best[thing + 1][room])
				best[thing + 1][room] = taken;
		}
	printf("%d:", best[MANY][MOST]);
	for (thing = MANY, room = MOST; thing > 0; thing--)
		if (best[thing][room] != best[thing - 1][room]) {
			printf(" %s", things[thing - 1].name);
			room -= things[thing - 1].weighs;
		}
	printf(", room for %d more\n", room);
	room = common("memory management", "merry amazement", text);
	printf("%d: %s\n", room, text);
	return 0;
}
