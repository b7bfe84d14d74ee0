// SPDX-License-Identifier: GPL-2.0-only OR MIT
/*
 * Writes answers.h, the stored answers that the module compares with, from tests/reference.c and reference_why.c. It
 * runs where the module is built: the answers are too many to keep in the repository, and so they cannot be out of
 * date.
 */
#include "cubes.h"
#include "reference.h"

#include <string.h>

/* How many answers have each cause, by either rule, and each scan. */
static unsigned int causes[4][3], scans[6];

static void print_table(const char *cube, const char *name, const uint8_t *bytes, size_t count)
{
	printf("static const uint8_t %s_%s[] = ", cube, name);
	print_bytes(bytes, count);
	printf(";\n");
}

static void put_nodes(const struct list *list, uint8_t *table)
{
	memset(table, 0, NODES / 8);
	add_nodes(list, table);
}

/* Prints the tables of the cube, and leaves its labels and the answers of labelling. */
static void print_labels(const struct cube *cube, uint8_t *labels, uint32_t *answers)
{
	uint8_t faults[NODES / 8], draining[NODES / 8], closed[2][NODES / 8];
	size_t size = ref_label_bytes(cube->n), len = ref_fault_bytes(cube->n);
	uint32_t job;

	put_nodes(&cube->faults, faults);
	put_nodes(&cube->draining, draining);
	for (job = 0; job < 2; job++) {
		put_nodes(&cube->closed[job], closed[job]);
		answers[job] = ref_label(cube->n, cube->rule, job, faults, len, draining, len, closed[job], len, labels,
					 size);
	}
	if (cube->given)
		memcpy(labels, cube->given, size);
	print_table(cube->name, "faults", faults, len);
	print_table(cube->name, "draining", draining, len);
	print_table(cube->name, "closed_0", closed[0], len);
	print_table(cube->name, "closed_1", closed[1], len);
	print_table(cube->name, "labels", labels, size);
}

/* Why each node has its label, and one above the last. */
static void print_whys(const struct cube *cube, uint32_t job)
{
	uint8_t faults[NODES / 8], draining[NODES / 8], closed[NODES / 8], labels[2 * NODES];
	size_t size = ref_label_bytes(cube->n), len = ref_fault_bytes(cube->n);
	uint32_t x;

	put_nodes(&cube->faults, faults);
	put_nodes(&cube->draining, draining);
	put_nodes(&cube->closed[job], closed);
	printf("static const uint64_t %s_whys_%u[] = {", cube->name, job);
	for (x = 0; x <= 1u << cube->n; x++) {
		uint64_t why = ref_why_node(cube->n, cube->rule, job, x, faults, len, draining, len, closed, len,
					    labels, size);

		causes[cube->rule][why >> 56] += !cube->given && x < 1u << cube->n;
		printf("%lluu,", (unsigned long long)why);
	}
	printf("};\n");
}

/* All pairs, and those with an end that is one above the last node. */
static void print_pairs(const struct cube *cube, uint32_t job, const uint8_t *labels)
{
	uint32_t nodes = 1u << cube->n, s, d;
	size_t size = ref_label_bytes(cube->n);
	uint8_t row[ROW_BYTES];

	printf("static const struct hcube_answer %s_answers_%u[] = {\n", cube->name, job);
	for (s = 0; s <= nodes; s++)
		for (d = 0; d <= nodes; d++) {
			uint32_t why = ref_why_hop(cube->n, job, s, d, labels, size);

			if (why >> 16 == 1)
				scans[why >> 8 & 255]++;
			memset(row, UNTOUCHED, sizeof row);
			printf("{%u,%u,", ref_hop(cube->n, job, s, d, labels, size), why);
			printf("%u,", ref_walk(cube->n, job, s, d, labels, size, row, sizeof row));
			print_bytes(row, sizeof row);
			printf("},\n");
		}
	printf("};\n");
}

static void print_closing(const struct cube *cube, uint32_t job, uint32_t answer)
{
	printf("{%s_closed_%u, %u, %s_labels + %u, %s_whys_%u, %s_answers_%u}", cube->name, job, answer, cube->name,
	       job << cube->n, cube->name, job, cube->name, job);
}

static void print_cube(const struct cube *cube, const uint32_t *answers)
{
	printf("{\"%s\", %u, %u, %d, %s_faults, %s_draining, sizeof(%s_faults), %s_labels, {", cube->name, cube->n,
	       cube->rule, !cube->given, cube->name, cube->name, cube->name, cube->name);
	print_closing(cube, 0, answers[0]);
	printf(", ");
	print_closing(cube, 1, answers[1]);
	printf("}},\n");
}

/* Whether each cause and each scan is there; says how many. */
static int all_came_up(void)
{
	int is_all = 1, rule, k;

	for (rule = 2; rule <= 3; rule++)
		for (k = 0; k < 3; k++) {
			printf("/* rule %d, cause %d: %u nodes */\n", rule, k, causes[rule][k]);
			is_all &= causes[rule][k] >= 20;
		}
	for (k = 0; k < 6; k++) {
		printf("/* scan %d: %u hops */\n", k, scans[k]);
		is_all &= scans[k] >= 20;
	}
	return is_all;
}

int main(void)
{
	static uint8_t labels[2 * NODES];
	static uint32_t answers[CUBES][2];
	int k;

	printf("/* SPDX-License-Identifier: GPL-2.0-only OR MIT */\n/* Written by make_answers. */\n");
	for (k = 0; k < CUBES; k++) {
		print_labels(&cubes[k], labels, answers[k]);
		print_whys(&cubes[k], 0);
		print_whys(&cubes[k], 1);
		print_pairs(&cubes[k], 0, labels);
		print_pairs(&cubes[k], 1, labels);
	}
	printf("static const struct hcube_cube hcube_cubes[] = {\n");
	for (k = 0; k < CUBES; k++)
		print_cube(&cubes[k], answers[k]);
	printf("};\n");
	if (all_came_up())
		return 0;
	fprintf(stderr, "make_answers: a cause or a scan came up in fewer than 20 answers\n");
	return 1;
}
