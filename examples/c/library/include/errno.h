#ifndef ERRNO_H
#define ERRNO_H

extern int errno;
#define ENOENT 2
#define E2BIG 7
#define EBADF 9
#define ECHILD 10
#define EAGAIN 11
#define ENOMEM 12
#define EFAULT 14
#define EINVAL 22
#define ERANGE 34

#endif
