/*
 * sides.h: what the three sides are asked, and rows of their times. The input is
 * set in these variables; the tables have room for every dimension.
 */
#ifndef SIDES_H
#define SIDES_H

#include <stdint.h>

#include "times.h"

#define MOST_TABLE 512
#define UNTOUCHED 0xff /* what a buffer holds before */

extern uint32_t n, rule, job;
extern uint8_t faults[MOST_TABLE], draining[MOST_TABLE], closed[MOST_TABLE];
extern uint16_t masks[8 * MOST_TABLE];

/* A random node of the cube. */
uint32_t random_node(void);

/* Ends the run where the sides differ in this, since the times would say nothing
 * then; the second asks each of them. */
void expect(int alike, const char *name);
void expect_alike(asked *question, const char *name);

/* Measures and prints a row, if the three sides answer alike: of the questions
 * about labels (sides.c), of the notice of `faults` (notices.c), of its list text
 * (lists.c), of its repair by `masks` (repairs.c) and of hop and walk by networks
 * (networks.c). */
void print_row(const char *name);
void print_notice_row(const char *name);
void print_list_row(const char *name);
void print_repair_row(const char *name);
void print_networks_row(const char *name);

#endif
