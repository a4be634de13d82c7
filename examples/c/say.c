/* Says its arguments. It is what shell runs. */

#include <stdio.h>

int main(int argc, char **argv)
{
	int at;

	for (at = 1; at < argc; at++)
		printf(at + 1 < argc ? "%s " : "%s\n", argv[at]);
	return argc - 1;
}
