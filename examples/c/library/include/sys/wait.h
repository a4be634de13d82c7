#ifndef SYS_WAIT_H
#define SYS_WAIT_H

#include <sys/types.h>

/* the number of a child that ended, and how: 256 times its code, or the signal that ended it */
pid_t wait(int *status);
/* The same of this child, or of any where it is -1. Others that end meanwhile are remembered for their own turn. There are no
   process groups, and wait can't look without waiting: for 0, another number below -1 and WNOHANG it answers -1, and errno is EINVAL. */
pid_t waitpid(pid_t child, int *status, int options);
#define WNOHANG 1
#define WUNTRACED 2
#define WIFEXITED(status) (((status) & 255) == 0)
#define WEXITSTATUS(status) ((status) >> 8 & 255)
#define WIFSIGNALED(status) (((status) & 127) != 0)
#define WTERMSIG(status) ((status) & 127)

#endif
