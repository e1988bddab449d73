/* speed/timing.h: the clock and the median, for the programs that time.
 * The clock counts the program's own time alone, so that what else the machine does disturbs little.
 */
#ifndef SPEED_TIMING_H
#define SPEED_TIMING_H

#include <stdlib.h>
#include <time.h>

/* Nanoseconds that this program has run. */
static inline double now(void)
{
    struct timespec time;
    clock_gettime(CLOCK_PROCESS_CPUTIME_ID, &time);
    return (double)time.tv_sec * 1e9 + (double)time.tv_nsec;
}

static inline int by_size(const void *a, const void *b)
{
    double x = *(const double *)a, y = *(const double *)b;
    return (x > y) - (x < y);
}

static inline double median(double *rounds, size_t count)
{
    qsort(rounds, count, sizeof *rounds, by_size);
    return rounds[count / 2];
}

#endif
