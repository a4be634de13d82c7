/* Formatted output: what printf and its kin have in common. The conversions are d, i, u, x, X, o, c, s, p and %, with the
   flags -, 0, +, blank and #, a width and a precision, numbers or *, and the lengths hh, h, l, z and t. A conversion that
   isn't known is shown as it stands, and takes no argument. */

#include <stdarg.h>
#include <stdio.h>
#include <unistd.h>

/* Where characters go: to a place that has room for so many more; or to the standard output; or to another file, whose
   place is emptied whenever it is full. */
struct sink {
	char *at;
	size_t room;
	int to_output;
	int to_file;
	int count;		/* of all characters, also of those without room */
};

#define ROOM 128		/* of the place of a file */

/* A conversion. */
struct conversion {
	int left, zeros, plus, blank, other;	/* the flags */
	int width;
	int precision;				/* or -1 */
};

static const struct conversion plain = { 0, 0, 0, 0, 0, 0, -1 };

static void empty(struct sink *sink)
{
	int held = ROOM - sink->room;

	write(sink->to_file, sink->at - held, held);
	sink->at -= held;
	sink->room = ROOM;
}

static void put(struct sink *sink, int character)
{
	sink->count++;
	if (sink->to_output) {
		putchar(character);
		return;
	}
	if (sink->room == 0) {
		if (!sink->to_file)
			return;
		empty(sink);
	}
	*sink->at++ = character;
	sink->room--;
}

static void repeat(struct sink *sink, int character, int times)
{
	while (times-- > 0)
		put(sink, character);
}

/* the length of a prefix, which is a sign, 0x or empty */
static int length_of(const char *prefix)
{
	return prefix[0] == 0 ? 0 : prefix[1] == 0 ? 1 : 2;
}

/* puts a prefix, so many zeros and a text into a field */
static void field(struct sink *sink, struct conversion *how, const char *prefix, int zeros, const char *text, int length)
{
	int rest = how->width - zeros - length - length_of(prefix);

	if (rest > 0 && !how->left)
		repeat(sink, ' ', rest);
	while (*prefix)
		put(sink, *prefix++);
	if (zeros > 0)
		repeat(sink, '0', zeros);
	while (length-- > 0)
		put(sink, *text++);
	if (rest > 0 && how->left)
		repeat(sink, ' ', rest);
}

/* the digits of a number, which end at `end`; where they begin */
static char *digits_of(unsigned number, int kind, char *end)
{
	const char *digits = kind == 'X' ? "0123456789ABCDEF" : "0123456789abcdef";
	int quotient;

	for (; number != 0; number = quotient) {
		if (kind == 'x' || kind == 'X') {
			*--end = digits[number & 15];
			quotient = number >> 4;
		} else if (kind == 'o') {
			*--end = '0' + (number & 7);
			quotient = number >> 3;
		} else if ((int)number < 0) {
			*--end = '0' + number % 10;
			quotient = number / 10;
		} else {
			/* the machine divides signed numbers, which most are */
			quotient = (int)number / 10;
			*--end = '0' + ((int)number - 10 * quotient);
		}
	}
	return end;
}

static void number(struct sink *sink, struct conversion *how, int kind, unsigned value)
{
	char digits[12], *end = digits + sizeof digits, *at;
	const char *prefix = "";
	int length, zeros = how->precision;

	if (kind == 'd') {
		prefix = how->plus ? "+" : how->blank ? " " : "";
		if ((int)value < 0) {
			prefix = "-";
			value = -value;
		}
	} else if (how->other && value != 0 && kind != 'u' && kind != 'o')
		prefix = kind == 'X' ? "0X" : "0x";
	at = digits_of(value, kind, end);
	if (at == end && zeros < 0 || how->other && kind == 'o' && (at == end || *at != '0') && zeros <= end - at)
		*--at = '0';
	length = end - at;
	if (zeros < 0 && how->zeros && !how->left)
		zeros = how->width - length_of(prefix);
	field(sink, how, prefix, zeros > length ? zeros - length : 0, at, length);
}

/* the number at the beginning of a format, or the argument of a `*` */
static int count_of(const char **format, char **arguments)
{
	int count = 0;

	if (**format == '*') {
		++*format;
		return va_arg(*arguments, int);
	}
	for (; **format >= '0' && **format <= '9'; ++*format)
		count = 10 * count + **format - '0';
	return count;
}

/* reads the flags, the width and the precision of a conversion */
static void read_conversion(struct conversion *how, const char **format, char **arguments)
{
	for (;; ++*format)
		if (**format == '-')
			how->left = 1;
		else if (**format == '0')
			how->zeros = 1;
		else if (**format == '+')
			how->plus = 1;
		else if (**format == ' ')
			how->blank = 1;
		else if (**format == '#')
			how->other = 1;
		else
			break;
	how->width = count_of(format, arguments);
	if (how->width < 0) {
		how->left = 1;
		how->width = -how->width;
	}
	if (**format == '.') {
		++*format;
		how->precision = count_of(format, arguments);
	}
}

static void text(struct sink *sink, struct conversion *how, const char *shown)
{
	int length = 0;

	if (shown == 0)
		shown = "(null)";
	while ((how->precision < 0 || length < how->precision) && shown[length])
		length++;
	field(sink, how, "", 0, shown, length);
}

static void convert(struct sink *sink, const char *format, char *arguments)
{
	struct conversion how;
	const char *begun;
	char character;
	int kind, size, value;

	for (; *format; format++) {
		if (*format != '%') {
			put(sink, *format);
			continue;
		}
		begun = format++;
		how = plain;
		if (*format < 'a')
			read_conversion(&how, &format, &arguments);
		size = 4;
		if (*format == 'h')
			for (; *format == 'h'; format++)
				size /= 2;
		else if (*format == 'l' || *format == 'z' || *format == 't')
			format++;
		kind = *format;
		switch (kind) {
		case 'd':
		case 'i':
			value = va_arg(arguments, int);
			number(sink, &how, 'd', size == 2 ? (short)value : size == 1 ? (signed char)value : value);
			break;
		case 'u':
		case 'o':
		case 'x':
		case 'X':
			value = va_arg(arguments, int);
			number(sink, &how, kind, size == 2 ? value & 0xffff : size == 1 ? value & 0xff : value);
			break;
		case 'p':
			value = va_arg(arguments, int);
			how.other = 1;
			if (value == 0)
				text(sink, &how, "(nil)");
			else
				number(sink, &how, 'x', value);
			break;
		case 's':
			text(sink, &how, va_arg(arguments, char *));
			break;
		case 'c':
			character = va_arg(arguments, int);
			field(sink, &how, "", 0, &character, 1);
			break;
		case '%':
			put(sink, '%');
			break;
		default:
			for (; begun < format; begun++)
				put(sink, *begun);
			if (kind == 0)
				return;
			put(sink, kind);
		}
	}
}

int vprintf(const char *format, va_list arguments)
{
	struct sink sink = { 0, 0, 1, 0, 0 };

	convert(&sink, format, arguments);
	return sink.count;
}

int vfprintf(FILE *file, const char *format, va_list arguments)
{
	char place[ROOM];
	struct sink sink = { place, ROOM, 0, 2, 0 };

	if (file == stdout)
		return vprintf(format, arguments);
	convert(&sink, format, arguments);
	empty(&sink);
	return sink.count;
}

int vsnprintf(char *to, size_t size, const char *format, va_list arguments)
{
	struct sink sink = { to, size > 0 ? size - 1 : 0, 0, 0, 0 };

	convert(&sink, format, arguments);
	if (size > 0)
		*sink.at = 0;
	return sink.count;
}

int vsprintf(char *to, const char *format, va_list arguments)
{
	return vsnprintf(to, -1, format, arguments);
}

int printf(const char *format, ...)
{
	va_list arguments;

	va_start(arguments, format);
	return vprintf(format, arguments);
}

int fprintf(FILE *file, const char *format, ...)
{
	va_list arguments;

	va_start(arguments, format);
	return vfprintf(file, format, arguments);
}

int sprintf(char *to, const char *format, ...)
{
	va_list arguments;

	va_start(arguments, format);
	return vsprintf(to, format, arguments);
}

int snprintf(char *to, size_t size, const char *format, ...)
{
	va_list arguments;

	va_start(arguments, format);
	return vsnprintf(to, size, format, arguments);
}
