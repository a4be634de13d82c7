#ifndef STDIO_H
#define STDIO_H

#include <stdarg.h>
#include <stddef.h>

typedef struct __file FILE;
#define EOF (-1)

/* what goes to stdout waits in a buffer until it is full, or until fflush or exit: flush it before a fork. What goes to
   stderr is written at once */
extern FILE *stdout, *stderr;
int fflush(FILE *file);
int putchar(int character);
int putc(int character, FILE *file);
int fputc(int character, FILE *file);
int puts(const char *text);
int fputs(const char *text, FILE *file);
void perror(const char *text);

/* format.c says which conversions there are. Those into a place write at most `size` bytes with the 0 at their end; all
   answer how many bytes there would be with room enough, that 0 not counted */
int printf(const char *format, ...);
int fprintf(FILE *file, const char *format, ...);
int sprintf(char *to, const char *format, ...);
int snprintf(char *to, size_t size, const char *format, ...);
int vprintf(const char *format, va_list arguments);
int vfprintf(FILE *file, const char *format, va_list arguments);
int vsprintf(char *to, const char *format, va_list arguments);
int vsnprintf(char *to, size_t size, const char *format, va_list arguments);

#endif
