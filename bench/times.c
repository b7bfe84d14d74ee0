/* times.c: each time is the median of the repetitions, in processor time. */
#define _POSIX_C_SOURCE 199309L
#include "times.h"

#include <stdio.h>
#include <stdlib.h>
#include <time.h>

static unsigned repetitions = 1, above, measured;
static double highest;
static volatile uint32_t kept; /* so that no call is left out */

void set_repetitions(unsigned count)
{
    repetitions = count;
}

static double now(void)
{
    struct timespec time;
    clock_gettime(CLOCK_PROCESS_CPUTIME_ID, &time);
    return (double)time.tv_sec * 1e9 + (double)time.tv_nsec;
}

static double time_of(asked *question, int side, unsigned calls)
{
    double start = now();
    for (unsigned k = 0; k < calls; k++)
        kept += question(side);
    return (now() - start) / calls;
}

static int by_size(const void *a, const void *b)
{
    double x = *(const double *)a, y = *(const double *)b;
    return (x > y) - (x < y);
}

double median(double *times)
{
    qsort(times, repetitions, sizeof *times, by_size);
    return times[repetitions / 2];
}

void measure(asked *question, unsigned per_call)
{
    static double times[SIDES][MOST_REPETITIONS];
    double middle[SIDES], plain, ratio;
    unsigned calls = 1 + (unsigned)(2e5 / (time_of(question, GCC, 2) + 1));
    for (unsigned k = 0; k < repetitions; k++)
        for (unsigned turn = 0; turn < SIDES; turn++) {
            unsigned side = (turn + k) % SIDES;
            times[side][k] = time_of(question, (int)side, calls);
        }
    for (unsigned side = 0; side < SIDES; side++)
        middle[side] = median(times[side]);
    plain = middle[GCC] < middle[CLANG] ? middle[GCC] : middle[CLANG];
    ratio = middle[ARCHIVE] / plain;
    printf(" %10.0f %5.2f %c", middle[ARCHIVE] / per_call, ratio,
           plain == middle[GCC] ? 'g' : 'c');
    measured++;
    above += ratio > 1.0;
    if (ratio > highest)
        highest = ratio;
}

void print_highest(void)
{
    printf("\nhighest ratio %.2f; above 1.0: %u of %u\n", highest, above,
           measured);
}
