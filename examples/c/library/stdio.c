/* Output. What goes to stdout waits in a buffer of 1,024 bytes, which is what one call write takes. */

#include <stdio.h>
#include <stdlib.h>
#include <unistd.h>

struct __file {
	int number;
	int waits;	/* whether a buffer keeps what is put */
};

static struct __file output = { 1, 1 }, errors = { 2, 0 };
struct __file *stdout = &output, *stderr = &errors;

static char buffer[1024];
static int used;

int fflush(FILE *file)
{
	int at = 0, written;

	while (at < used) {
		written = write(output.number, buffer + at, used - at);
		if (written < 0)
			return EOF;
		at += written;
	}
	used = 0;
	return 0;
}

void exit(int code)
{
	fflush(stdout);
	_exit(code);
}

int putchar(int character)
{
	if (used == sizeof buffer)
		fflush(stdout);
	buffer[used++] = character;
	return character & 255;
}

int putc(int character, FILE *file)
{
	char octet = character;

	if (file->waits)
		return putchar(character);
	return write(file->number, &octet, 1) == 1 ? character & 255 : EOF;
}

int fputc(int character, FILE *file)
{
	return putc(character, file);
}

int puts(const char *text)
{
	while (*text)
		putchar(*text++);
	return putchar('\n');
}

int fputs(const char *text, FILE *file)
{
	return fprintf(file, "%s", text);
}
