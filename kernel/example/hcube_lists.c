// SPDX-License-Identifier: GPL-2.0-only OR MIT
/*
 * List text beside the kernel's own. Of each stored cube, and of random tables of every dimension, hcube_write_list
 * writes what the kernel prints by %*pbl, and each reads the other's text. Of random texts, good and damaged: what
 * hcube_read_list takes the kernel takes too, as the same set; what it refuses with 12 the kernel refuses as out of
 * range; some of what it refuses with 14 the kernel takes, and `taken` says which. The kernel keeps a set in words of
 * unsigned long, the library in bytes: to_bitmap goes by nodes, whichever byte of a word comes first.
 */
#include <linux/bitmap.h>
#include <linux/kernel.h>
#include <linux/sched.h>
#include <linux/slab.h>
#include <linux/string.h>

#include "hcube.h"
#include "hcube_lists.h"
#include "stored.h"

enum { RANDOM_TABLES = 4000, RANDOM_TEXTS = 20000, MOST_ENTRIES = 12, TEXT_MAX = 42 * MOST_ENTRIES };

struct lists {
	uint8_t table[HCUBE_FAULT_BYTES_MAX], read[HCUBE_FAULT_BYTES_MAX];
	char written[HCUBE_LIST_BYTES_MAX + 1], printed[HCUBE_LIST_BYTES_MAX + 2];
	DECLARE_BITMAP(set, HCUBE_NODES_MAX);
	DECLARE_BITMAP(parsed, HCUBE_NODES_MAX);
	uint64_t random;
	unsigned long tables, texts, both, neither, kernel_alone, wrong;
};

static void to_bitmap(const uint8_t *table, uint32_t nodes, unsigned long *set)
{
	uint32_t k;

	bitmap_zero(set, nodes);
	for (k = 0; k < nodes; k++)
		if (table[k / 8] >> k % 8 & 1)
			__set_bit(k, set);
}

/* A random number below this one; the same row of them in every run (xorshift). */
static uint32_t below(struct lists *lists, uint32_t bound)
{
	lists->random ^= lists->random << 13;
	lists->random ^= lists->random >> 7;
	lists->random ^= lists->random << 17;
	return (uint32_t)(lists->random >> 32) % bound;
}

/* ---- tables: both write the same text, and each reads that of the other */

static bool same_text(struct lists *lists, uint32_t n)
{
	uint32_t nodes = HCUBE_NODES(n), written;
	int printed;

	memset(lists->written, HCUBE_UNTOUCHED, sizeof(lists->written));
	written = hcube_write_list(n, lists->table, HCUBE_FAULT_BYTES(n), (uint8_t *)lists->written,
				   HCUBE_LIST_BYTES_MAX);
	to_bitmap(lists->table, nodes, lists->set);
	printed = scnprintf(lists->printed, sizeof(lists->printed), "%*pbl", (int)nodes, lists->set);
	return written == (uint32_t)printed && memcmp(lists->written, lists->printed, written) == 0 &&
	       (uint8_t)lists->written[written] == HCUBE_UNTOUCHED;
}

static bool same_table(struct lists *lists, uint32_t n)
{
	size_t bytes = HCUBE_FAULT_BYTES(n), len = strlen(lists->printed);

	memset(lists->read, HCUBE_UNTOUCHED, sizeof(lists->read));
	if (hcube_read_list(n, (const uint8_t *)lists->printed, len, lists->read, bytes) != 0 ||
	    memcmp(lists->read, lists->table, bytes) != 0)
		return false;
	lists->written[len] = '\0'; /* the kernel's texts end so */
	return bitmap_parselist(lists->written, lists->parsed, HCUBE_NODES(n)) == 0 &&
	       bitmap_equal(lists->parsed, lists->set, HCUBE_NODES(n));
}

static void compare_table(struct lists *lists, uint32_t n)
{
	lists->tables++;
	if ((!same_text(lists, n) || !same_table(lists, n)) && lists->wrong++ < 5)
		pr_err("hcube_lists: n = %u, the kernel has %.60s\n", n, lists->printed);
}

/* Each node with this chance of 256; `step` at a time, which makes runs. */
static void random_table(struct lists *lists, uint32_t n, uint32_t chance, uint32_t step)
{
	uint32_t k, is_faulty = 0;

	memset(lists->table, 0, HCUBE_FAULT_BYTES(n));
	for (k = 0; k < HCUBE_NODES(n); k++) {
		is_faulty = k % step ? is_faulty : below(lists, 256) < chance;
		lists->table[k / 8] |= is_faulty << k % 8;
	}
}

static void compare_tables(struct lists *lists)
{
	uint32_t n, k;

	for (k = 0; k < hcube_stored_count; k++) {
		memcpy(lists->table, hcube_stored[k].faults, hcube_stored[k].table_len);
		compare_table(lists, hcube_stored[k].n);
	}
	for (n = 1; n <= HCUBE_DIMENSION_MAX; n++) { /* none, all, and the longest text */
		random_table(lists, n, 0, 1);
		compare_table(lists, n);
		random_table(lists, n, 256, 1);
		compare_table(lists, n);
		for (k = 2; k < HCUBE_NODES(n); k += 3)
			lists->table[k / 8] &= ~(1 << k % 8);
		compare_table(lists, n);
	}
	for (k = 0; k < RANDOM_TABLES; k++) {
		n = 1 + k % HCUBE_DIMENSION_MAX;
		random_table(lists, n, below(lists, 257), 1 + below(lists, 4) * below(lists, 20));
		compare_table(lists, n);
		cond_resched();
	}
}

/* ---- texts */

/* A node; now and then any number, or one that would be a node in its low 64 bits. */
static size_t random_number(struct lists *lists, char *text, uint32_t n)
{
	uint32_t k = below(lists, 40);

	if (k == 0)
		return sprintf(text, "1844674407370955161%u", 6 + below(lists, 4));
	return sprintf(text, "%u", below(lists, k > 1 ? HCUBE_NODES(n) : 0x7fffffff));
}

/* A list of numbers and ranges, some of these the wrong way round; then damage: a byte is changed. */
static void random_text(struct lists *lists, uint32_t n, char *text)
{
	static const char others[] = "0123456789,,,---  \n:/Nalx";
	uint32_t entries = below(lists, MOST_ENTRIES), k;
	size_t len = 0;

	for (k = 0; k < entries; k++) {
		if (k)
			text[len++] = ',';
		len += random_number(lists, text + len, n);
		if (below(lists, 4))
			continue;
		text[len++] = '-';
		len += random_number(lists, text + len, n);
	}
	text[len] = '\0';
	if (len && below(lists, 3) == 0)
		text[below(lists, len)] = others[below(lists, sizeof(others) - 1)];
}

/* Whether the table is what it was before it was lent. */
static bool is_kept(const struct lists *lists)
{
	return !memchr_inv(lists->read, HCUBE_UNTOUCHED, sizeof(lists->read));
}

static bool text_is_right(struct lists *lists, uint32_t n, const char *text)
{
	uint32_t nodes = HCUBE_NODES(n), answer;
	int error = bitmap_parselist(text, lists->parsed, nodes);

	memset(lists->read, HCUBE_UNTOUCHED, sizeof(lists->read));
	answer = hcube_read_list(n, (const uint8_t *)text, strlen(text), lists->read, HCUBE_FAULT_BYTES(n));
	if (answer == 0) {
		lists->both++;
		to_bitmap(lists->read, nodes, lists->set);
		return error == 0 && bitmap_equal(lists->parsed, lists->set, nodes);
	}
	*(error ? &lists->neither : &lists->kernel_alone) += 1;
	if (HCUBE_REFUSAL(answer) == HCUBE_BAD_ADDRESS)
		return is_kept(lists) && (error == -ERANGE || error == -EOVERFLOW);
	return is_kept(lists) && answer == (uint32_t)HCUBE_BAD_LIST << 24;
}

static void compare_texts(struct lists *lists)
{
	char text[TEXT_MAX];
	uint32_t n, k;

	for (k = 0; k < RANDOM_TEXTS; k++) {
		n = 1 + k % HCUBE_DIMENSION_MAX;
		random_text(lists, n, text);
		lists->texts++;
		if (!text_is_right(lists, n, text) && lists->wrong++ < 5)
			pr_err("hcube_lists: n = %u, the text \"%s\"\n", n, text);
		cond_resched();
	}
}

/* What the kernel takes and hcube_read_list refuses with 14, and the nodes that the kernel reads, of n = 5. */
static const struct {
	const char *text;
	uint32_t nodes;
} taken[] = {
	{ " 0", 1 }, { "0 ", 1 }, { "0 8", 0x101 }, { "0\t8", 0x101 }, { "0, 8", 0x101 }, { "0 ,8", 0x101 },
	{ "\n0", 1 }, { "0,\n8", 0x101 }, { "0 \n8", 0x101 }, { " ", 0 }, { "\n", 0 }, /* blanks and line ends */
	{ "0\n", 1 }, { "0\r\n", 1 }, { "0\nx", 1 }, { "0-3\n8", 15 }, /* what stands behind a line end is not read */
	{ ",0", 1 }, { "0,", 1 }, { "0,,8", 0x101 }, { ",", 0 }, { ",,,0-1,,", 3 }, /* commas */
	{ "00", 1 }, { "007", 0x80 }, { "0-01", 3 }, { "00-1", 3 }, /* zeros */
	{ "N", 1u << 31 }, { "30-N", 3u << 30 }, { "N-N", 1u << 31 }, /* the last node */
	{ "all", ~0u }, { "ALL", ~0u }, { "All", ~0u }, { "0,all", ~0u }, /* every node */
	{ "0-31:2/4", 0x33333333 }, { "0-7:1/2", 0x55 }, { "all:1/2", 0x55555555 }, { "0-7:1/2N", 0x80000055 },
	{ "8-15:0/4", 0 }, { "0-7:1/2\n8", 0x155 }, /* of each group some, and then a line end is a blank */
};

static bool is_taken(struct lists *lists, const char *text, uint32_t nodes)
{
	int error = bitmap_parselist(text, lists->parsed, 32);

	bitmap_from_arr32(lists->set, &nodes, 32);
	memset(lists->read, HCUBE_UNTOUCHED, sizeof(lists->read));
	return error == 0 && bitmap_equal(lists->parsed, lists->set, 32) &&
	       hcube_read_list(5, (const uint8_t *)text, strlen(text), lists->read, HCUBE_FAULT_BYTES(5)) ==
		       (uint32_t)HCUBE_BAD_LIST << 24 &&
	       is_kept(lists);
}

static void compare_taken(struct lists *lists)
{
	size_t k;

	for (k = 0; k < ARRAY_SIZE(taken); k++) {
		lists->texts++;
		lists->kernel_alone++;
		if (!is_taken(lists, taken[k].text, taken[k].nodes) && lists->wrong++ < 5)
			pr_err("hcube_lists: the kernel and \"%s\"\n", taken[k].text);
	}
}

int hcube_lists_compare(void)
{
	struct lists *lists = kzalloc(sizeof(*lists), GFP_KERNEL);
	int error;

	if (!lists)
		return -ENOMEM;
	lists->random = 1; /* the seed */
	compare_tables(lists);
	compare_texts(lists);
	compare_taken(lists);
	pr_info("hcube_lists: %lu tables and %lu texts, of which %lu were read by both, %lu refused by both, %lu taken by the kernel alone, %lu wrong\n",
		lists->tables, lists->texts, lists->both, lists->neither, lists->kernel_alone, lists->wrong);
	error = lists->wrong ? -EIO : 0;
	kfree(lists);
	return error;
}
