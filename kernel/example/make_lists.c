// SPDX-License-Identifier: GPL-2.0-only OR MIT
/*
 * Writes lists.h: the list texts that the module reads and the fault tables whose text it writes, with the answers of
 * tests/reference_list.c. They are those of each stored cube, and each of these with one thing wrong, of a text at each
 * of its bytes in turn. It runs where the module is built.
 */
#include "cubes.h"
#include "reference.h"

#include <stdlib.h>
#include <string.h>

enum { TEXT_BYTES = 40, TABLE_BYTES = 40 };

struct text {
	char bytes[TEXT_BYTES];
	size_t len;
};

/* Besides the cubes: numbers of three digits, and a cube without a working node. */
static const struct cube more[] = {
	{ .name = "eight", .n = 8, .faults = { 3, { 5, 200, 255 } } },
	{ .name = "all", .n = 2, .faults = { 4, { 0, 1, 2, 3 } } },
};

static const uint32_t no_dimensions[] = { 0, 13, 0x80000001 };

static unsigned int answered[256], written[256]; /* how many texts and tables have each refusal */

static void put_nodes(const struct cube *cube, uint8_t *table)
{
	memset(table, 0, TABLE_BYTES);
	add_nodes(&cube->faults, table);
}

/* ---- texts that are read */

static void print_read(uint32_t n, const struct text *text, size_t table_len)
{
	uint8_t table[TABLE_BYTES];
	uint32_t answer;

	memset(table, UNTOUCHED, sizeof table);
	answer = ref_read_list(n, (const uint8_t *)text->bytes, text->len, table, table_len);
	answered[answer >> 24]++;
	printf("{%uu, ", n);
	print_bytes((const uint8_t *)text->bytes, sizeof text->bytes);
	printf(", %zu, %zu, %uu, ", text->len, table_len, answer);
	print_bytes(table, sizeof table);
	printf("},\n");
}

static void put(struct text *text, const char *bytes)
{
	if (text->len + strlen(bytes) > sizeof text->bytes) {
		fprintf(stderr, "make_lists: TEXT_BYTES is too few\n");
		exit(2);
	}
	memcpy(text->bytes + text->len, bytes, strlen(bytes));
	text->len += strlen(bytes);
}

/* The cube's nodes one by one, from the last down, every second as a range from itself to itself. */
static struct text falling(const struct cube *cube)
{
	struct text text = { .len = 0 };
	int k;

	for (k = cube->faults.count; k-- > 0;) {
		char entry[20];

		snprintf(entry, sizeof entry, k % 2 ? "%s%d" : "%s%d-%d", text.len ? "," : "", cube->faults.nodes[k],
			 cube->faults.nodes[k]);
		put(&text, entry);
	}
	return text;
}

/* Each byte in turn becomes another, or ends the text; and something stands behind all of it. */
static void print_damaged(uint32_t n, const struct text *text, size_t table_len)
{
	static const char others[] = { '0', '7', ',', '-', ' ', '\n', '\0', 'x', '\xff' };
	static const char *const behind[] = { ",", "-", ",4096", ",4096,", "\n", ",0-", "-99999999999999" };
	struct text other;
	size_t k, i;

	for (k = 0; k < text->len; k++) {
		for (i = 0; i < sizeof others; i++) {
			other = *text;
			other.bytes[k] = others[i];
			print_read(n, &other, table_len);
		}
		other = *text;
		other.len = k;
		print_read(n, &other, table_len);
	}
	for (k = 0; k < sizeof behind / sizeof behind[0]; k++) {
		other = *text;
		put(&other, behind[k]);
		print_read(n, &other, table_len);
	}
}

/* The cube's own text. */
static struct text own_text(const struct cube *cube, const uint8_t *table)
{
	struct text text = { .len = 0 };
	uint32_t answer = ref_write_list(cube->n, table, ref_fault_bytes(cube->n), (uint8_t *)text.bytes,
					 sizeof text.bytes);

	if (answer >> 24) {
		fprintf(stderr, "make_lists: the text of a cube is refused with %u\n", answer >> 24);
		exit(2);
	}
	text.len = answer;
	return text;
}

static void print_reads(const struct cube *cube)
{
	uint8_t table[TABLE_BYTES];
	size_t len = ref_fault_bytes(cube->n), k;
	struct text text, other = falling(cube);

	put_nodes(cube, table);
	text = own_text(cube, table);
	print_read(cube->n, &text, len);
	print_read(cube->n, &other, len);
	print_read(cube->n, &text, 0);
	print_read(cube->n, &text, len - 1);
	print_read(cube->n, &text, len + 1);
	for (k = 0; k < sizeof no_dimensions / sizeof no_dimensions[0]; k++)
		print_read(no_dimensions[k], &text, len);
	print_damaged(cube->n, &text, len);
}

/* ---- tables whose text is written */

static void print_writing(uint32_t n, const uint8_t *table, size_t table_len, size_t room)
{
	uint8_t bytes[TEXT_BYTES];
	uint32_t answer;

	memset(bytes, UNTOUCHED, sizeof bytes);
	answer = ref_write_list(n, table, table_len, bytes, room);
	written[answer >> 24]++;
	printf("{%uu, ", n);
	print_bytes(table, TABLE_BYTES);
	printf(", %zu, %zu, %uu, ", table_len, room, answer);
	print_bytes(bytes, sizeof bytes);
	printf("},\n");
}

/* With room for nothing, for a byte less than all, for all, and for more. */
static void print_rooms(uint32_t n, const uint8_t *table, size_t table_len, size_t text_len)
{
	print_writing(n, table, table_len, 0);
	if (text_len > 0)
		print_writing(n, table, table_len, text_len - 1);
	print_writing(n, table, table_len, text_len);
	print_writing(n, table, table_len, text_len + 2);
}

static void print_writings(const struct cube *cube)
{
	uint8_t table[TABLE_BYTES];
	size_t len = ref_fault_bytes(cube->n), text_len, k;

	put_nodes(cube, table);
	text_len = own_text(cube, table).len;
	print_rooms(cube->n, table, len, text_len);
	for (k = 0; k < sizeof no_dimensions / sizeof no_dimensions[0]; k++)
		print_rooms(no_dimensions[k], table, len, text_len);
	print_rooms(cube->n, table, 0, text_len);
	print_rooms(cube->n, table, len - 1, text_len);
	print_rooms(cube->n, table, len + 1, text_len);
	for (k = (size_t)1 << cube->n; k < 8; k++) { /* bits that a table of this cube has no node for */
		table[0] ^= 1 << k;
		print_rooms(cube->n, table, len, text_len);
		table[0] ^= 1 << k;
	}
}

/* ---- all of them */

static int all_came_up(void)
{
	static const uint8_t of_texts[] = { 0, 1, 2, 14, 12 }, of_tables[] = { 0, 1, 2, 3, 13 };

	return came_up("texts", answered, of_texts, sizeof of_texts) &
	       came_up("tables", written, of_tables, sizeof of_tables);
}

/* For the cubes and those besides. */
static void print_all(void (*print)(const struct cube *cube))
{
	size_t k;

	for (k = 0; k < CUBES; k++)
		print(&cubes[k]);
	for (k = 0; k < sizeof more / sizeof more[0]; k++)
		print(&more[k]);
	printf("};\n");
}

int main(void)
{
	printf("/* SPDX-License-Identifier: GPL-2.0-only OR MIT */\n/* Written by make_lists. */\n");
	printf("static const struct hcube_list lists[] = {\n");
	print_all(print_reads);
	printf("static const struct hcube_list_writing list_writings[] = {\n");
	print_all(print_writings);
	if (all_came_up())
		return 0;
	fprintf(stderr, "make_lists: a refusal came up in fewer than 20 texts or tables\n");
	return 1;
}
