/*
 * cabinet.h: the cabinet at hand as one job sees it, its three tables and its
 * labels, and questions about it, each held against the reference (check.h). Each
 * is asked for either job, in turn (questions.h).
 */
#ifndef CABINET_H
#define CABINET_H

#include <stdint.h>

#include "reference.h"

extern uint8_t faults[MOST_FAULT_BYTES], draining[MOST_FAULT_BYTES];
extern uint8_t closed[MOST_FAULT_BYTES];
extern uint8_t labels[MOST_NODES];

/* Takes every node out of the tables; puts one into any one of them. */
void clear_cabinet(void);
void put_out(uint32_t k);
/* Whether the node is in one of them. */
int is_out(uint32_t k);

/* Random tables: faulty nodes, each with this chance, draining and closed ones. */
void random_cabinet(uint32_t n, unsigned per_mille);

/* Labels the tables by the rule into a half that holds anything: either job's, or
 * that of this one. */
uint32_t label_cabinet(uint32_t n, uint32_t rule);
uint32_t label_for(uint32_t n, uint32_t rule, uint32_t job);

/* Labels of no cabinet instead: mostly safe, mostly not, or evenly mixed. */
void mixed_labels(uint32_t n);

/* Walks by these labels into a row that holds anything. */
uint32_t walk_by(const uint8_t *by, uint32_t n, uint32_t s, uint32_t d,
                 uint8_t *row);

/* The first node of some that are tried which the labels call draining; if none
 * is, the last of them. */
uint32_t some_draining(uint32_t n);

/* Hop and walk by the labels: between all nodes; or between so many random ones,
 * and then twice to some_draining. */
void all_pairs(uint32_t n);
void some_pairs(uint32_t n, unsigned count);

#endif
