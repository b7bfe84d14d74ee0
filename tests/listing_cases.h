/*
 * listing_cases.h: an input of the listing program while it is put together.
 */
#ifndef LISTING_CASES_H
#define LISTING_CASES_H

#include "cases.h"
#include "reference.h"

#define ROOM 80000

/* The input at hand, and where the numbers of its notice begin. */
extern uint8_t bytes[ROOM];
extern size_t len;
extern size_t places[MOST_PLACES];

/* Starts with these bytes, or with the notice of a random table in which each
 * node is faulty with this chance. */
void start_text(const char *text, size_t text_len);
#define START(text) start_text(text, sizeof text - 1)
void start_notice(uint32_t n, unsigned per_mille);
/* Adds a number; adds random pairs of nodes. */
void add_number(uint32_t value);
void add_pairs(uint32_t n, unsigned count);

/* Writes the input at hand as a case. */
void make(const char *name);
/* The same, with its last line `WHAT refused REFUSAL PLACE`. */
void make_refused(const char *name, const char *what, unsigned refusal,
                  size_t place);

/* All cases in which a number is refused (listing_refused.c). */
void refused_inputs(void);

#endif
