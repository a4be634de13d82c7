#ifndef STRING_H
#define STRING_H

#include <stddef.h>

size_t strlen(const char *text);
char *strcpy(char *to, const char *from);
char *strncpy(char *to, const char *from, size_t most);
char *strcat(char *to, const char *from);
char *strncat(char *to, const char *from, size_t most);
int strcmp(const char *one, const char *other);
int strncmp(const char *one, const char *other, size_t most);
char *strchr(const char *text, int wanted);
char *strrchr(const char *text, int wanted);
char *strstr(const char *text, const char *wanted);
char *strpbrk(const char *text, const char *wanted);
size_t strspn(const char *text, const char *accepted);
size_t strcspn(const char *text, const char *refused);
size_t strnlen(const char *text, size_t most);
char *strtok(char *text, const char *between);
char *strtok_r(char *text, const char *between, char **rest);
char *strdup(const char *text);
char *strndup(const char *text, size_t most);
char *strerror(int number);
void *memchr(const void *bytes, int wanted, size_t count);
void *memcpy(void *to, const void *from, size_t bytes);
void *memmove(void *to, const void *from, size_t bytes);
void *memset(void *to, int octet, size_t bytes);
int memcmp(const void *one, const void *other, size_t bytes);

#endif
