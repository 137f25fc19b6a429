/* The library's time over that of an independent player, measured in turns in one run. */
#ifndef MEASURE_H
#define MEASURE_H

#include <stdint.h>

enum { MEASURES = 31, FRAMES = 600 };

/* Kept so that no call is left out by the compiler. */
extern volatile uint32_t sink;

/* One piece of work on a started track, done by the library or by the independent player. */
typedef void work(const void *started);

/* Prints a row. A target of 0 is none. */
void compare(const char *what, const char *track, work *library, work *reference, const void *started, double target);

/* mother.c: the rows of Mother's calls. */
void compare_mother(void);

#endif
