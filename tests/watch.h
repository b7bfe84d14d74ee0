/*
 * watch.h: a label buffer whose every read and write is noted while machine code
 * runs, one instruction at a time. Its pages are shut; an instruction that reaches
 * for them is stopped, noted, and made once more alone, with the pages open. Each
 * half has pages of its own, which are opened by themselves: an access that
 * reaches from one half into the other is noted in both.
 */
#ifndef WATCH_H
#define WATCH_H

#include <stddef.h>
#include <stdint.h>

/* A buffer of two halves of so many bytes, at most WATCHED_HALF. What is before it
 * and behind it is watched too. */
#define WATCHED_HALF 65536
uint8_t *watched_buffer(size_t half_bytes);

/* From watch_begin to watch_end the accesses to the buffer are noted. */
void watch_begin(void);
void watch_end(void);

/* What was noted, in order; at most so much is. The place is counted from the
 * buffer's first byte. An access of several bytes is noted once, at its first,
 * and once more where it reaches into the second half. */
#define MOST_NOTES (1u << 22)
struct note {
    int32_t place;
    int32_t is_write;
};
extern struct note notes[MOST_NOTES];
extern size_t noted;

#endif
