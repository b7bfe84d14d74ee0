/*
 * combinations.h: a question with all that it refuses, in every combination. A
 * combination is a number, from which the choices are split off one by one.
 */
#ifndef COMBINATIONS_H
#define COMBINATIONS_H

#include <stddef.h>
#include <stdint.h>

/* Good dimensions, and others, of which two would be good once narrowed; and those
 * of small buffers alone, for what has the most combinations. */
extern const uint32_t dimensions[7], small_ones[6];
/* The two jobs, and what is none. */
extern const uint32_t jobs[11];

/* What is left of the number; splits off one of so many choices. */
extern unsigned number;
unsigned part(size_t count);
#define ANY_OF(array) (array)[part(COUNT(array))]

/* Lengths; half of a label buffer's is what one job alone would take. */
enum { RIGHT, SHORT, LONG, HALVED, EMPTY, DOUBLED, LENGTHS };
size_t length_of(unsigned kind, size_t exact);

/* Expects this refusal, or none where it is 0, of combination `from`. */
void is_due(const char *what, unsigned from, uint64_t answer, unsigned due);

/* Asks with numbers that are no dimension, some of which would be one once narrowed:
 * with each the dimension that the buffers are to fit. */
void ask_no_dimensions(void (*ask)(uint32_t n, uint32_t fitting));

/* A group that asks the combinations from 0 on, up to the one that has a part too
 * many. `ask` gives what is left of the number, which is then not 0. */
void check_all(const char *title, unsigned (*ask)(unsigned from));

#endif
