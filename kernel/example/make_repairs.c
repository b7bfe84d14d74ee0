// SPDX-License-Identifier: GPL-2.0-only OR MIT
/*
 * Writes repairs.h: the fault tables that the module repairs, the masks by which it does, and the answers of
 * tests/reference_repair.c. The tables are those of each stored cube; the masks those of a cabinet in which the cube's
 * draining and closed nodes died, and random ones; and each table is there with one thing wrong. It runs where the
 * module is built.
 */
#include "cubes.h"
#include "reference.h"

#include <stdlib.h>
#include <string.h>

enum { TABLE_BYTES = 40, NUMBERS = NODES + 2 };

/* All that is handed over. */
struct repair {
	uint32_t n;
	uint8_t faults[TABLE_BYTES];
	uint16_t masks[NUMBERS];
	size_t faults_len, masks_len, result_len, row_len;
};

static unsigned int answered[256]; /* how many have each refusal */
static unsigned int added; /* how many nodes came into a table */

static int in_table(const uint8_t *table, uint32_t k)
{
	return table[k / 8] >> k % 8 & 1;
}

static void print_numbers(const uint16_t *numbers, size_t count)
{
	size_t k;

	printf("{");
	for (k = 0; k < count; k++)
		printf("%s%d", k ? "," : "", numbers[k]);
	printf("}");
}

static void print_repair(const struct repair *repair)
{
	uint8_t result[TABLE_BYTES];
	uint16_t row[NUMBERS];
	uint32_t answer, k;

	memset(result, UNTOUCHED, sizeof result);
	memset(row, UNTOUCHED, sizeof row);
	answer = ref_repair(repair->n, repair->faults, repair->faults_len, repair->masks, repair->masks_len, result,
			    repair->result_len, row, repair->row_len);
	answered[answer >> 24]++;
	for (k = 0; answer == 0 && k < repair->row_len; k++)
		added += row[k] != 0;
	printf("{%uu, ", repair->n);
	print_bytes(repair->faults, sizeof repair->faults);
	printf(", ");
	print_numbers(repair->masks, NUMBERS);
	printf(", %zu, %zu, %zu, %zu, %uu, ", repair->faults_len, repair->masks_len, repair->result_len, repair->row_len,
	       answer);
	print_bytes(result, sizeof result);
	printf(", ");
	print_numbers(row, NUMBERS);
	printf("},\n");
}

/* ---- masks */

/* Each bit with this chance of 256. */
static void put_random(struct repair *repair, uint32_t chance)
{
	uint32_t w, i;

	memset(repair->masks, 0, sizeof repair->masks);
	for (w = 0; w < repair->masks_len; w++)
		for (i = 0; i < repair->n; i++)
			repair->masks[w] |= (below(256) < chance) << i;
}

/* All who live name each neighbour that is dead: faulty, draining, or closed by a job. */
static void put_died(struct repair *repair, const struct cube *cube)
{
	const struct list *lists[] = { &cube->faults, &cube->draining, &cube->closed[0], &cube->closed[1] };
	uint8_t dead[TABLE_BYTES] = { 0 };
	uint32_t w, i;
	size_t k;

	for (k = 0; k < sizeof lists / sizeof lists[0]; k++)
		add_nodes(lists[k], dead);
	memset(repair->masks, 0, sizeof repair->masks);
	for (w = 0; w < repair->masks_len; w++)
		for (i = 0; i < repair->n && !in_table(dead, w); i++)
			repair->masks[w] |= in_table(dead, w ^ 1u << i) << i;
}

/* ---- one thing wrong */

/* Each length in turn: none, one less, one more. */
static void print_lengths(const struct repair *repair)
{
	struct repair other = *repair;
	size_t *lengths[] = { &other.faults_len, &other.masks_len, &other.result_len, &other.row_len };
	size_t k;

	for (k = 0; k < sizeof lengths / sizeof lengths[0]; k++) {
		size_t exact = *lengths[k];

		*lengths[k] = 0;
		print_repair(&other);
		*lengths[k] = exact - 1;
		print_repair(&other);
		*lengths[k] = exact + 1;
		print_repair(&other);
		*lengths[k] = exact;
	}
}

/* A bit that is too high, of this node's mask. */
static void print_stray(const struct repair *repair, uint32_t w, uint32_t bit)
{
	struct repair other = *repair;

	other.masks[w] |= 1u << bit;
	print_repair(&other);
}

static void print_damaged(const struct repair *repair)
{
	static const uint32_t no_dimensions[] = { 0, 13, 0x80000001 };
	struct repair other = *repair;
	uint32_t w;
	size_t k;

	for (k = 0; k < sizeof no_dimensions / sizeof no_dimensions[0]; k++) {
		other.n = no_dimensions[k];
		print_repair(&other);
	}
	other.n = repair->n;
	print_lengths(repair);
	for (k = (size_t)1 << repair->n; k < 8; k++) { /* bits that a table of this cube has no node for */
		other.faults[0] ^= 1 << k;
		print_repair(&other);
		print_stray(&other, 0, repair->n); /* which is tested later */
		other.faults[0] ^= 1 << k;
	}
	print_stray(repair, 0, repair->n);
	print_stray(repair, below(repair->masks_len), repair->n + below(16 - repair->n));
	for (w = 0; w < repair->masks_len; w++) /* of the faulty too */
		if (in_table(repair->faults, w))
			print_stray(repair, w, 15);
}

/* ---- all of them */

static void print_repairs(const struct cube *cube)
{
	static const uint32_t chances[] = { 0, 2, 10, 40, 128, 256 };
	size_t bytes = ref_fault_bytes(cube->n), nodes = (size_t)1 << cube->n, k;
	struct repair repair = { cube->n, { 0 }, { 0 }, bytes, nodes, bytes, nodes };

	add_nodes(&cube->faults, repair.faults);
	for (k = 0; k < sizeof chances / sizeof chances[0]; k++) {
		put_random(&repair, chances[k]);
		print_repair(&repair);
	}
	print_damaged(&repair);
	put_died(&repair, cube);
	print_repair(&repair);
	print_damaged(&repair);
}

int main(void)
{
	static const uint8_t refusals[] = { 0, 1, 2, 3, 17 };
	int is_all, k;

	printf("/* SPDX-License-Identifier: GPL-2.0-only OR MIT */\n/* Written by make_repairs. */\n");
	printf("static const struct hcube_repairing repairings[] = {\n");
	for (k = 0; k < CUBES; k++)
		print_repairs(&cubes[k]);
	printf("};\n");
	is_all = came_up("tables", answered, refusals, sizeof refusals);
	printf("/* %u nodes added */\n", added);
	if (is_all && added >= 20)
		return 0;
	fprintf(stderr, "make_repairs: a refusal came up in fewer than 20 tables, or fewer nodes were added\n");
	return 1;
}
