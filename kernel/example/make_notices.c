// SPDX-License-Identifier: GPL-2.0-only OR MIT
/*
 * Writes notices.h: the notices that the module reads, with the answers of tests/reference_notice.c, and the fault tables
 * whose notices it writes, with those of reference_write.c. They are those of each stored cube, and each of these with
 * one thing wrong, of a notice at each of its numbers in turn. It runs where the module is built.
 */
#include "cubes.h"
#include "reference.h"

#include <string.h>

enum { NOTICE_BYTES = 16, TABLE_BYTES = 40, NUMBERS = 9 };

struct notice {
	uint8_t bytes[NOTICE_BYTES];
	size_t len;
};

/* As numbers: dimension, count, first node, then distances less one. */
struct row {
	uint32_t values[NUMBERS];
	size_t count;
};

/* In place of a number and, where it is cut, of all that is behind it. */
struct change {
	size_t len;
	uint8_t bytes[2];
	int is_cut;
};

static const struct change changes[] = {
	{ 0, { 0 }, 1 }, /* 9: nothing of the number is there */
	{ 1, { 0x81 }, 1 }, /* 9: its second group is missing */
	{ 2, { 0x81, 0 }, 0 }, /* 10 */
	{ 2, { 0x81, 0x80 }, 0 }, /* 10 */
	{ 2, { 0xff, 0x7f }, 0 }, /* 1, 11 or 12: the largest number */
};

/* Besides the cubes: a number of two groups, and a cube without a working node. */
static const struct cube more[] = {
	{ .name = "eight", .n = 8, .faults = { 3, { 5, 200, 255 } } },
	{ .name = "all", .n = 2, .faults = { 4, { 0, 1, 2, 3 } } },
};

static unsigned int answered[256], written[256]; /* how many notices and tables have each refusal */

static void put(struct notice *notice, const uint8_t *bytes, size_t len)
{
	memcpy(notice->bytes + notice->len, bytes, len);
	notice->len += len;
}

static void put_numbers(struct notice *notice, const uint32_t *values, size_t count)
{
	size_t k;

	for (k = 0; k < count; k++) {
		uint8_t groups[] = { values[k] % 128 + 128 * (values[k] > 127), values[k] / 128 };

		put(notice, groups, 1 + (values[k] > 127));
	}
}

static void print_notice(const struct notice *notice, size_t table_len)
{
	uint32_t dimension = ref_notice_dimension(notice->bytes, notice->len);
	uint8_t table[TABLE_BYTES];
	uint64_t read;

	memset(table, UNTOUCHED, sizeof table);
	read = ref_read_notice(notice->bytes, notice->len, table, table_len);
	answered[read >> 24 & 255]++;
	printf("{");
	print_bytes(notice->bytes, sizeof notice->bytes);
	printf(", %zu, %zu, %uu, %lluu, ", notice->len, table_len, dimension, (unsigned long long)read);
	print_bytes(table, sizeof table);
	printf("},\n");
}

static void print_changed(const struct row *row, size_t k, const struct change *change, size_t table_len)
{
	struct notice notice = { .len = 0 };

	put_numbers(&notice, row->values, k);
	put(&notice, change->bytes, change->len);
	if (!change->is_cut)
		put_numbers(&notice, row->values + k + 1, row->count - k - 1);
	print_notice(&notice, table_len);
}

static void print_valued(const struct row *row, size_t k, uint32_t value, size_t table_len)
{
	struct notice notice = { .len = 0 };
	struct row other = *row;

	other.values[k] = value;
	put_numbers(&notice, other.values, other.count);
	print_notice(&notice, table_len);
}

/* The least number at place k that is too large. */
static uint32_t too_large(const struct cube *cube, size_t k)
{
	uint32_t nodes = 1u << cube->n;

	if (k < 2)
		return k == 0 ? 13 : nodes + 1;
	return k == 2 ? nodes : nodes - cube->faults.nodes[k - 3] - 1;
}

static struct row row_of(const struct cube *cube)
{
	struct row row = { { cube->n, cube->faults.count }, 2 + cube->faults.count };
	int k;

	for (k = 0; k < cube->faults.count; k++)
		row.values[2 + k] = cube->faults.nodes[k] - (k ? cube->faults.nodes[k - 1] + 1 : 0);
	return row;
}

static void print_notices(const struct cube *cube)
{
	static const uint8_t behind[] = { 0xff, 0xff }; /* is not read */
	size_t len = ref_fault_bytes(cube->n), k, c;
	struct row row = row_of(cube);
	struct notice notice = { .len = 0 };

	put_numbers(&notice, row.values, row.count);
	print_notice(&notice, len);
	print_notice(&notice, 0);
	print_notice(&notice, len - 1);
	print_notice(&notice, len + 1);
	put(&notice, behind, sizeof behind);
	print_notice(&notice, len);
	print_valued(&row, 0, 0, len);
	for (k = 0; k < row.count; k++) {
		print_valued(&row, k, too_large(cube, k), len);
		for (c = 0; c < sizeof changes / sizeof changes[0]; c++)
			print_changed(&row, k, &changes[c], len);
	}
}

static void print_writing(uint32_t n, const uint8_t *table, size_t table_len, size_t room)
{
	uint8_t bytes[NOTICE_BYTES];
	uint32_t answer;

	memset(bytes, UNTOUCHED, sizeof bytes);
	answer = ref_write_notice(n, table, table_len, bytes, room);
	written[answer >> 24]++;
	printf("{%uu, ", n);
	print_bytes(table, TABLE_BYTES);
	printf(", %zu, %zu, %uu, ", table_len, room, answer);
	print_bytes(bytes, sizeof bytes);
	printf("},\n");
}

/* With room for nothing, for a byte less than all, for all, and for more. */
static void print_rooms(uint32_t n, const uint8_t *table, size_t table_len, size_t notice_len)
{
	print_writing(n, table, table_len, 0);
	print_writing(n, table, table_len, notice_len - 1);
	print_writing(n, table, table_len, notice_len);
	print_writing(n, table, table_len, notice_len + 2);
}

static void print_writings(const struct cube *cube)
{
	static const uint32_t others[] = { 0, 13, 0x80000001 }; /* are no dimensions */
	uint8_t table[TABLE_BYTES] = { 0 };
	size_t len = ref_fault_bytes(cube->n), notice_len, k;
	struct row row = row_of(cube);
	struct notice notice = { .len = 0 };

	put_numbers(&notice, row.values, row.count);
	notice_len = notice.len;
	add_nodes(&cube->faults, table);
	print_rooms(cube->n, table, len, notice_len);
	for (k = 0; k < sizeof others / sizeof others[0]; k++)
		print_rooms(others[k], table, len, notice_len);
	print_rooms(cube->n, table, 0, notice_len);
	print_rooms(cube->n, table, len - 1, notice_len);
	print_rooms(cube->n, table, len + 1, notice_len);
	for (k = (size_t)1 << cube->n; k < 8; k++) { /* bits that a table of this cube has no node for */
		table[0] ^= 1 << k;
		print_rooms(cube->n, table, len, notice_len);
		table[0] ^= 1 << k;
	}
}

static int all_came_up(void)
{
	static const uint8_t of_notices[] = { 0, 9, 10, 1, 2, 11, 12 }, of_tables[] = { 0, 1, 2, 3, 13 };

	return came_up("notices", answered, of_notices, sizeof of_notices) &
	       came_up("tables", written, of_tables, sizeof of_tables);
}

/* For the cubes and those besides. */
static void print_all(void (*print)(const struct cube *cube))
{
	size_t k;

	for (k = 0; k < CUBES; k++)
		print(&cubes[k]);
	for (k = 0; k < sizeof more / sizeof more[0]; k++)
		print(&more[k]);
	printf("};\n");
}

int main(void)
{
	printf("/* SPDX-License-Identifier: GPL-2.0-only OR MIT */\n/* Written by make_notices. */\n");
	printf("static const struct hcube_notice notices[] = {\n");
	print_all(print_notices);
	printf("static const struct hcube_writing writings[] = {\n");
	print_all(print_writings);
	if (all_came_up())
		return 0;
	fprintf(stderr, "make_notices: a refusal came up in fewer than 20 notices or tables\n");
	return 1;
}
