/*
 * cases.h: what the tests' inputs are made of: random numbers with a fixed
 * seed, fault, draining and closed tables, label tables, notices, list text, masks.
 */
#ifndef CASES_H
#define CASES_H

#include <stddef.h>
#include <stdint.h>

#define COUNT(array) (sizeof(array) / sizeof(array)[0])

/* The next random number; the same row of numbers in every run. */
uint64_t random_bits(void);
void random_seed(uint64_t seed);
/* Any bytes at all. */
void random_bytes(uint8_t *bytes, size_t len);
/* A random number below `bound`, which is not 0. */
uint32_t random_below(uint32_t bound);

/* Whether the node is in the fault, draining or closed table; and puts it there. */
int in_table(const uint8_t *table, uint32_t k);
void put_node(uint8_t *table, uint32_t k);
/* A good fault table in which each node is faulty with chance per_mille/1000. */
void random_faults(uint32_t n, unsigned per_mille, uint8_t *faults);
/* A draining table beside it: empty, one or two nodes, any, or half of the faulty
 * ones, of which half are taken out of the fault table. */
void random_draining(uint32_t n, uint8_t *faults, uint8_t *draining);
/* A closed table beside them: half of the time empty, else one or two nodes, any,
 * or half of those in the other two, of which half are taken out there. */
void random_closed(uint32_t n, uint8_t *faults, uint8_t *draining,
                   uint8_t *closed);
/* A chance per mille: none, few, some, many or all in turn. */
unsigned random_density(uint32_t n);
/* Label bytes, each one a random byte of 0 to `most`. */
void random_labels(uint32_t n, unsigned most, uint8_t *labels);

/* Writes a number in groups; how many bytes it took. */
size_t put_number(uint32_t value, uint8_t *bytes);
/* Writes the notice of a good fault table; its length, at most 4099 bytes. The
 * places are where its numbers begin, in order, and then its length. */
size_t put_notice(uint32_t n, const uint8_t *faults, uint8_t *bytes,
                  size_t *places);
#define MOST_PLACES (2 + 4096 + 1)

/* Writes a number in digits; how many. */
size_t put_digits(uint32_t value, uint8_t *text);
/* Writes the list text of a good fault table; its length, at most 12913 bytes. */
size_t put_list(uint32_t n, const uint8_t *faults, uint8_t *text);
/* The table of which the text is the longest: nodes in pairs, one left out
 * between each two. */
void worst_list(uint32_t n, uint8_t *faults);

/* The masks of a cabinet with these dead nodes: all others name their neighbours
 * that are dead, and the dead say nothing. */
void masks_of(uint32_t n, const uint8_t *dead, uint16_t *masks);
/* Masks with no bit at n or above: none, a few bits, any, all, or those of some
 * cabinet. */
void random_masks(uint32_t n, uint16_t *masks);

#endif
