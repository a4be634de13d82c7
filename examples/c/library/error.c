/* What errors mean, and what is told of them. */

#include <errno.h>
#include <stdio.h>
#include <string.h>

char *strerror(int number)
{
	switch (number) {
	case 0: return "Success";
	case ENOENT: return "No such file or directory";
	case E2BIG: return "Argument list too long";
	case EBADF: return "Bad file descriptor";
	case ECHILD: return "No child processes";
	case EAGAIN: return "Resource temporarily unavailable";
	case ENOMEM: return "Cannot allocate memory";
	case EFAULT: return "Bad address";
	case EINVAL: return "Invalid argument";
	case ERANGE: return "Numerical result out of range";
	}
	return "Unknown error";
}

void perror(const char *text)
{
	if (text && *text)
		fprintf(stderr, "%s: ", text);
	fprintf(stderr, "%s\n", strerror(errno));
}
