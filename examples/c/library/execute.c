/* execve by other words. The arguments of a call stand one after another, as execve wants them. */

#include <unistd.h>

int execv(const char *path, char *const arguments[])
{
	return execve(path, arguments, 0);
}

int execvp(const char *path, char *const arguments[])
{
	return execve(path, arguments, 0);
}

int execl(const char *path, const char *argument, ...)
{
	return execve(path, (char *const *)&argument, 0);
}

int execlp(const char *path, const char *argument, ...)
{
	return execve(path, (char *const *)&argument, 0);
}
