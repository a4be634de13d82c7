#ifndef STRINGS_H
#define STRINGS_H

#include <stddef.h>

int strcasecmp(const char *one, const char *other);
int strncasecmp(const char *one, const char *other, size_t most);
char *index(const char *text, int wanted);
char *rindex(const char *text, int wanted);
void bzero(void *to, size_t bytes);
void bcopy(const void *from, void *to, size_t bytes);
int bcmp(const void *one, const void *other, size_t bytes);

#endif
