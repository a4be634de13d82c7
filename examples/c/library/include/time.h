#ifndef TIME_H
#define TIME_H

#include <stddef.h>

/* The machine has no clock. Time is what ran: `clock` counts the instructions of this process, those of its parent before the fork among
   them, and a second has as many as a turn. In a program that asks for the time each piece of its text counts itself as it runs, by one
   instruction more. */
#define CLOCKS_PER_SEC 1000
typedef long clock_t;
typedef long time_t;
clock_t clock(void);
time_t time(time_t *when);

#endif
