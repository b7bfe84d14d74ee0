/*
 * times.h: the time of a question as the archive answers it, as a ratio to plain
 * C, compiled by gcc and by clang; the faster of the two counts.
 */
#ifndef TIMES_H
#define TIMES_H

#include <stdint.h>

enum { ARCHIVE, GCC, CLANG, SIDES };

/* Asks this side; what it returns depends on every answer. */
typedef uint32_t asked(int side);

#define MOST_REPETITIONS 201
void set_repetitions(unsigned count);

/* The middle one of as many times as there are repetitions, which it sorts. */
double median(double *times);

/* Runs the three sides in turn and prints the median of the archive's
 * nanoseconds, a question being per_call calls, and their ratio to plain C. */
void measure(asked *question, unsigned per_call);

/* Prints the highest ratio so far, and how many are above 1. */
void print_highest(void);

#endif
