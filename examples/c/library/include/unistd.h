#ifndef UNISTD_H
#define UNISTD_H

#include <sys/types.h>

/* the system calls; each answers -1 where it fails, with the reason in errno */
void _exit(int code);
ssize_t write(int file, const void *bytes, size_t count);	/* at most 1,024 bytes at a time */
int brk(void *address);
void *sbrk(int bytes);
pid_t fork(void);
pid_t vfork(void);
int execve(const char *path, char *const arguments[], char *const environment[]);
pid_t getpid(void);

/* execve by other words: there is no path to look along, and no environment */
int execv(const char *path, char *const arguments[]);
int execvp(const char *path, char *const arguments[]);
int execl(const char *path, const char *argument, ...);
int execlp(const char *path, const char *argument, ...);

#define STDOUT_FILENO 1
#define STDERR_FILENO 2

#endif
