/* Formatted output: each conversion with flags, widths, precisions and lengths. */

#include <assert.h>
#include <limits.h>
#include <stdarg.h>
#include <stdbool.h>
#include <stddef.h>
#include <stdint.h>
#include <stdio.h>
#include <string.h>

static void signs(int number)
{
	printf("[%d] [%i] [%+d] [% d] [%+ d] [%5d] [%-5d] [%05d] [%+05d] [% 05d] [%-05d]\n", number, number, number, number, number, number, number, number, number, number, number);
	printf("[%.0d] [%.3d] [%6.3d] [%-6.3d] [%06.3d] [%+.3d] [%*d] [%-*d] [%.*d] [%*d]\n", number, number, number, number, number, number, 7, number, 7, number, 4, number, -7, number);
	printf("[%ld] [%li] [%hd] [%hhd] [%zd] [%td]\n", (long)number, (long)number, number, number, (size_t)number, (ptrdiff_t)number);
}

static void bits(unsigned number)
{
	printf("[%u] [%o] [%x] [%X] [%#o] [%#x] [%#X] [%12u] [%-12o] [%012x] [%#12x] [%-#12X] [%#012x]\n", number, number, number, number, number, number, number, number, number, number, number, number, number);
	printf("[%.0u] [%.0o] [%.0x] [%#.0o] [%#.0x] [%.5u] [%#.5o] [%#.5x] [%14.11x] [%#14.11o]\n", number, number, number, number, number, number, number, number, number, number);
	printf("[%lu] [%lo] [%lx] [%lX] [%hu] [%hho] [%hx] [%zu] [%tX]\n", (unsigned long)number, (unsigned long)number, (unsigned long)number, (unsigned long)number, number, number, number, (size_t)number, (ptrdiff_t)number);
}

static int formatted(char *to, size_t size, const char *format, ...)
{
	va_list arguments;
	int count;

	va_start(arguments, format);
	count = vsnprintf(to, size, format, arguments);
	va_end(arguments);
	return count;
}

static void places(void)
{
	char place[16];
	int size;

	for (size = 0; size < 16; size += 3) {
		memset(place, '.', sizeof place);
		printf("%d ", snprintf(place, size, "%s %d", "places", -1234));
		place[15] = 0;
		printf("%d [%s]\n", (int)strlen(place), place);
	}
	printf("%d %s %d\n", sprintf(place, "%03d%c%s", 7, '!', "end"), place, snprintf(NULL, 0, "%100d", 1));
	printf("%d %s\n", formatted(place, sizeof place, "%d-%s-%c", 12, "ab", 'z'), place);
}

int main(void)
{
	static const int numbers[] = { 0, 1, -1, 9, -10, 127, -128, 1000, -99999, INT_MAX, INT_MIN };
	bool truth = 17;
	uint16_t half = 65537;
	int8_t low = 200;
	unsigned at;

	for (at = 0; at < sizeof numbers / sizeof numbers[0]; at++) {
		signs(numbers[at]);
		bits(numbers[at]);
	}
	printf("[%s] [%10s] [%-10s] [%.2s] [%10.2s] [%-10.2s] [%.0s] [%.*s]\n", "text", "text", "text", "text", "text", "text", "text", 3, "text");
	printf("[%c] [%3c] [%-3c] [%%] [%p] [%p] [%12p]\n", 'c', 'c', 'c', (void *)0, (void *)0x1234, (void *)0xabcdef);
	printf("%d %d %d %d %u %d\n", truth, half, low, (int)sizeof(int32_t), UINT32_MAX, INT16_MIN);
	fprintf(stdout, "%s %d\n", "to a file", 1);
	fputs("a text\n", stdout);
	fputc('c', stdout);
	putc('\n', stdout);
	assert(truth == true);
	places();
	return 0;
}
