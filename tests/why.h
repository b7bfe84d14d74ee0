/*
 * why.h: why the nodes of the cabinet at hand (cabinet.h) have their labels, as
 * the library says it.
 */
#ifndef WHY_H
#define WHY_H

#include <stdint.h>

/* Labels the cabinet by this rule, for either job in turn. What is asked next
 * is asked of it. */
void begin_why(uint32_t n, uint32_t rule);

/* What the library answers of a node. It is asked once, and then held against
 * the reference, and the label buffer against what labelling left there. */
uint64_t why_of(uint32_t x);
/* Asks it once more where something is wrong: a replay shows the last question. */
void show_why(uint32_t x);

/* In why_cause.c: that the answer of a node is true, by the labels and by the
 * answers of its neighbours; and that the causes lead from it to a node that
 * does not work. */
void check_true(uint32_t n, uint32_t rule, uint32_t x);
void check_followed(uint32_t n, uint32_t rule, uint32_t x);

#endif
