/* A child that is waited for by its number. */

#include <errno.h>
#include <sys/wait.h>
#include <unistd.h>

#define MOST 64		/* as many processes as there may be */

/* children of this process that ended while another one was waited for */
static struct {
	pid_t child;
	int status;
} ended[MOST];
static int many;
static pid_t whose;

pid_t waitpid(pid_t child, int *status, int options)
{
	int at, how;
	pid_t found;

	if (options & WNOHANG || child == 0 || child < -1) {
		errno = EINVAL;
		return -1;
	}
	/* those that a parent remembers are no children of this one */
	if (whose != getpid())
		many = 0;
	whose = getpid();
	for (at = 0; at < many; at++)
		if (child == -1 || ended[at].child == child) {
			found = ended[at].child;
			how = ended[at].status;
			ended[at] = ended[--many];
			if (status)
				*status = how;
			return found;
		}
	for (;;) {
		found = wait(&how);
		if (found < 0 || child == -1 || found == child) {
			if (found >= 0 && status)
				*status = how;
			return found;
		}
		if (many < MOST) {
			ended[many].child = found;
			ended[many++].status = how;
		}
	}
}
