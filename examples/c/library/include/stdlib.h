#ifndef STDLIB_H
#define STDLIB_H

#include <stddef.h>

#define RAND_MAX 32767
#define EXIT_SUCCESS 0
#define EXIT_FAILURE 1

void exit(int code);
char *getenv(const char *name);	/* a program is started with no environment: it is 0 */
void abort(void);	/* ends by signal 4; what waits in the buffer of stdout is lost */
void *malloc(size_t bytes);
void *calloc(size_t count, size_t bytes);
void *realloc(void *memory, size_t bytes);
void free(void *memory);
void qsort(void *base, size_t count, size_t width, int (*compare)(const void *, const void *));
void *bsearch(const void *key, const void *base, size_t count, size_t width, int (*compare)(const void *, const void *));
int rand(void);
void srand(unsigned seed);
int abs(int number);
long labs(long number);
typedef struct { int quot, rem; } div_t;
typedef struct { long quot, rem; } ldiv_t;
div_t div(int number, int by);
ldiv_t ldiv(long number, long by);
int atoi(const char *text);
long atol(const char *text);
long strtol(const char *text, char **end, int base);
unsigned long strtoul(const char *text, char **end, int base);

#endif
