/* SPDX-License-Identifier: GPL-2.0-only OR MIT */
/*
 * The cubes whose answers the module has stored, for make_answers.c, make_notices.c, make_lists.c, make_repairs.c and
 * make_networks.c, and what these share. They run where the module is built; the module itself does not read this.
 */
#ifndef CUBES_H
#define CUBES_H

#include <stdint.h>
#include <stdio.h>

enum { NODES = 64, UNTOUCHED = 0xaa };

struct list {
	int count;
	uint8_t nodes[7]; /* rising */
};

struct cube {
	const char *name;
	uint32_t n, rule;
	struct list faults, draining, closed[2]; /* job 0 closes the first, job 1 the second */
	const uint8_t *given; /* if not NULL, these are the labels of both jobs, and nothing is labelled */
};

static const uint8_t swinging[] = { 0, 3, 3, 0, 0, 3, 3, 0, 0, 0, 0, 3, 0, 9, 1, 2 };
static const uint8_t byte_5[] = { 0, 4, 0, 3, 0, 5, 1, 4, 0, 3, 3, 4, 0, 4, 4, 0 };

static const struct cube cubes[] = {
	{ "two", 1, 3, { 0 }, { 0 }, { { 0 }, { 1, { 0 } } } }, /* both halves in one word */
	{ "two_drained", 1, 2, { 0 }, { 1, { 1 } }, { { 1, { 0 } }, { 1, { 1 } } } },
	{ "four", 2, 3, { 0 }, { 1, { 3 } }, { { 2, { 1, 2 } }, { 1, { 3 } } } },
	{ "k4", 4, 3, { 4, { 2, 4, 8, 15 } }, { 0 }, { { 0 }, { 1, { 3 } } } },
	{ "k4_older_rule", 4, 2, { 4, { 2, 4, 8, 15 } }, { 0 }, { { 1, { 3 } }, { 0 } } },
	{ "k4_by_closing", 4, 3, { 0 }, { 0 }, { { 4, { 2, 4, 8, 15 } }, { 1, { 5 } } } },
	{ "k4_drained", 4, 3, { 3, { 2, 4, 8 } }, { 1, { 15 } }, { { 0 }, { 1, { 15 } } } },
	{ "k4_around", 4, 3, { 4, { 2, 4, 8, 15 } }, { 1, { 9 } }, { { 0 }, { 2, { 9, 11 } } } }, /* 13 to 0 goes around 9 */
	/* Every kind of node but draining; 18 exchanges of job 0. */
	{ "six", 6, 3, { 7, { 0, 13, 23, 38, 47, 48, 58 } }, { 0 }, { { 0 }, { 1, { 28 } } } },
	/* Half of the nodes safe; 9 exchanges of job 0. */
	{ "six_older_rule", 6, 2, { 4, { 4, 25, 44, 48 } }, { 0 }, { { 0 }, { 1, { 1 } } } },
	/* Every kind of node; 13 is faulty and draining, and job 0 closes a draining one. */
	{ "six_drained", 6, 3, { 4, { 0, 13, 23, 47 } }, { 4, { 13, 38, 48, 58 } }, { { 2, { 12, 48 } }, { 0 } } },
	{ "no_safe_node", 3, 3, { 3, { 1, 2, 4 } }, { 0 }, { { 0 }, { 1, { 7 } } } },
	{ "no_safe_drained", 3, 2, { 2, { 1, 4 } }, { 1, { 2 } }, { { 1, { 2 } }, { 2, { 0, 7 } } } },
	{ .name = "swinging", .n = 3, .rule = 3, .given = swinging }, /* a byte above 4 for job 1 alone */
	{ .name = "byte_5", .n = 3, .rule = 3, .given = byte_5 }, /* and for job 0 alone */
};

enum { CUBES = sizeof cubes / sizeof cubes[0] };

/* A random number below this one; the same row of them in every run (xorshift). */
static inline uint32_t below(uint32_t bound)
{
	static uint64_t random = 1;

	random ^= random << 13;
	random ^= random >> 7;
	random ^= random << 17;
	return (uint32_t)(random >> 32) % bound;
}

/* Puts the nodes of a list into a table, beside those that are in it. */
static inline void add_nodes(const struct list *list, uint8_t *table)
{
	int k;

	for (k = 0; k < list->count; k++)
		table[list->nodes[k] / 8] |= 1 << list->nodes[k] % 8;
}

/* Whether some have each of these refusals, 0 for none; says how many. */
static inline int came_up(const char *what, const unsigned int *counts, const uint8_t *refusals, size_t count)
{
	int is_all = 1;
	size_t k;

	for (k = 0; k < count; k++) {
		printf("/* refusal %d: %u %s */\n", refusals[k], counts[refusals[k]], what);
		is_all &= counts[refusals[k]] >= 20;
	}
	return is_all;
}

static void print_bytes(const uint8_t *bytes, size_t count)
{
	size_t k;

	printf("{");
	for (k = 0; k < count; k++)
		printf("%s%d", k ? "," : "", bytes[k]);
	printf("}");
}

#endif
