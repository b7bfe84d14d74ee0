/*
 * frames.h: a frame as the cards of a cabinet pass it on, by the hop question
 * alone, for as long as hops are decided.
 */
#ifndef FRAMES_H
#define FRAMES_H

#include <stdint.h>

/* How it went: it ended within the hops that a walk may have; it ended after more;
 * it came to a node again. */
enum frame { WALKED, LONGER, ROUND, FRAMES };

/* Forwards a frame by these labels from a node that works to one that is not
 * faulty. Expects that it ended only if it was at no node twice, and that the walk
 * ended so too after as many hops, or is refused with 8 if it may not have so many. */
enum frame check_frame(uint32_t n, uint32_t s, uint32_t d, const uint8_t *half);

#endif
