/* this file may be included again, with NDEBUG defined or not */
#undef assert
#ifdef NDEBUG
#define assert(condition) ((void)0)
#else
/* where the condition doesn't hold, it is told in the output, and signal 4 ends the process */
void __assert(const char *condition, const char *file, int line);
#define assert(condition) ((condition) ? (void)0 : __assert(#condition, __FILE__, __LINE__))
#endif
