#ifndef STDARG_H
#define STDARG_H

/* the arguments of a call stand one after another, as longwords */
typedef char *va_list;
#define va_start(list, last) ((list) = (char *)&(last) + ((sizeof(last) + 3) & ~3))
#define va_arg(list, type) (*(type *)(((list) += (sizeof(type) + 3) & ~3) - ((sizeof(type) + 3) & ~3)))
#define va_copy(to, from) ((to) = (from))
#define va_end(list) ((void)0)

#endif
