/* The standard search in a table that the standard sort has made. */
#include <stdio.h>
#include <stdlib.h>
#include <string.h>

struct course {
	const char *name;
	int room;
};

static struct course courses[] = {
	{ "networks", 12 }, { "algorithms", 3 }, { "compilers", 7 }, { "databases", 9 },
	{ "operating systems", 1 }, { "graphics", 4 }, { "logic", 22 },
};

static int by_name(const void *one, const void *other)
{
	return strcmp(((const struct course *)one)->name, ((const struct course *)other)->name);
}

int main(void)
{
	const char *asked[] = { "logic", "algorithms", "painting", "operating systems", "" };
	size_t many = sizeof courses / sizeof courses[0], at;

	qsort(courses, many, sizeof courses[0], by_name);
	for (at = 0; at < many; at++)
		printf("%-18s %3d\n", courses[at].name, courses[at].room);
	for (at = 0; at < sizeof asked / sizeof asked[0]; at++) {
		struct course key = { asked[at], 0 };
		struct course *found = bsearch(&key, courses, many, sizeof courses[0], by_name);

		printf("\"%s\": %s %d\n", asked[at], found ? "room" : "none", found ? found->room : -1);
	}
	return bsearch(&courses[0], courses, 0, sizeof courses[0], by_name) != NULL;
}
