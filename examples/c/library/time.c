/* Time by what ran. The linker puts a step into each piece of the text that counts its instructions here. */

#include <time.h>

long __instructions;

clock_t clock(void)
{
	return __instructions;
}

time_t time(time_t *when)
{
	time_t now = __instructions / CLOCKS_PER_SEC;

	if (when)
		*when = now;
	return now;
}
