/* Times of runs. Of interleaved runs the tenth percentile counts: other work on the machine makes some of them longer, and none
   shorter. */
#ifndef TIMES_H
#define TIMES_H

#include <stdlib.h>
#include <time.h>

/* Seconds by a clock: CLOCK_MONOTONIC, or CLOCK_PROCESS_CPUTIME_ID, of which other work on the machine takes none. */
static inline double seconds_by(clockid_t clock)
{
    struct timespec t;
    clock_gettime(clock, &t);
    return (double)t.tv_sec + 1e-9 * (double)t.tv_nsec;
}

static inline int by_value(const void *a, const void *b)
{
    double x = *(const double *)a, y = *(const double *)b;
    return (x > y) - (x < y);
}

/* The tenth percentile of so many times, which are sorted. */
static inline double tenth_percentile(double *times, size_t runs)
{
    qsort(times, runs, sizeof *times, by_value);
    return times[runs / 10];
}

#endif
