/*
 * bounds.h: demand 3 of one walk by the labels at hand (cabinet.h), from a node
 * that works to one that works or is draining; `some` says that a node is safe.
 */
#ifndef BOUNDS_H
#define BOUNDS_H

#include <stdint.h>

void check_bounds_of(uint32_t n, uint32_t s, uint32_t d, int some);
/* Whether a node is safe. */
int has_safe_node(uint32_t n);

#endif
