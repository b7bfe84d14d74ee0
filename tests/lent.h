/*
 * lent.h: a buffer to lend to the library, guarded on both sides.
 *
 * It stands in memory of its own between two pages that nobody may touch:
 * sometimes right before the upper page, sometimes right after the lower one.
 * On its other side are guard bytes.
 */
#ifndef LENT_H
#define LENT_H

#include <stddef.h>
#include <stdint.h>

/* Longest buffer that can be lent. */
#define MOST_LENT (1u << 17)

struct lent {
    uint8_t *memory; /* MOST_LENT and two guards, between closed pages */
    uint8_t *bytes;
    size_t len;
    int high; /* the buffer ends where the memory ends */
};

/* Lends a copy of `content`. */
void lend(struct lent *lent, const uint8_t *content, size_t len);
/* The same, but the bytes from this place on may only be read: a write to one ends
 * the process, also where it is taken back. A struct is used for either alone. */
void lend_to_read(struct lent *lent, const void *content, size_t len,
                  size_t from);
/* Lends a copy of so many numbers of 16 bits, aligned as they have to be, and gives
 * their place. The length that is kept counts bytes. */
uint16_t *lend_numbers(struct lent *lent, const uint16_t *content, size_t count);
/* Whether the buffer has this content now and its guard bytes are kept. */
int lent_is(const struct lent *lent, const void *content);

#endif
