/* Timing and a row of the table. */
#define _POSIX_C_SOURCE 199309L
#include "measure.h"

#include <stdio.h>
#include <stdlib.h>
#include <time.h>

enum { SHORTEST_NS = 2000000 };

volatile uint32_t sink;

/* Processor time, so that what else the machine does counts less. */
static double now_ns(void)
{
    struct timespec t;
    clock_gettime(CLOCK_PROCESS_CPUTIME_ID, &t);
    return 1e9 * (double)t.tv_sec + (double)t.tv_nsec;
}

static double timed(work *w, const void *started, unsigned long times)
{
    double begun = now_ns();
    for (unsigned long i = 0; i < times; i++)
        w(started);
    return (now_ns() - begun) / (double)times;
}

/* How often the work must be done for a measure that the clock resolves. */
static unsigned long times_for(work *w, const void *started)
{
    unsigned long times = 1;
    while (timed(w, started, times) * (double)times < SHORTEST_NS)
        times *= 2;
    return times;
}

static int by_size(const void *a, const void *b)
{
    double x = *(const double *)a, y = *(const double *)b;
    return (x > y) - (x < y);
}

static double median(double values[MEASURES])
{
    qsort(values, MEASURES, sizeof values[0], by_size);
    return values[MEASURES / 2];
}

void compare(const char *what, const char *track, work *library, work *reference, const void *started, double target)
{
    double ours[MEASURES], theirs[MEASURES], ratios[MEASURES];
    unsigned long times = times_for(library, started), reference_times = times_for(reference, started);
    for (int i = 0; i < MEASURES; i++) {
        ours[i] = timed(library, started, times);
        theirs[i] = timed(reference, started, reference_times);
        ratios[i] = ours[i] / theirs[i];
    }
    double ratio = median(ratios);
    printf("%-6s %-20s %12.2f us %12.2f us %9.4f", what, track, median(ours) / 1000, median(theirs) / 1000, ratio);
    if (target > 0)
        printf("   at most %.2f: %s", target, ratio <= target ? "met" : "MISSED");
    printf("\n");
}
