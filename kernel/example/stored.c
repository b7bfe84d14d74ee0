// SPDX-License-Identifier: GPL-2.0-only OR MIT
/*
 * Calls the functions of hcube.h on the stored cubes, notices, lists, tables and pairs, and compares with the stored
 * answers. It calls nothing else of the module.
 */
#include <linux/kernel.h>
#include <linux/string.h>

#include "hcube.h"
#include "stored.h"
#include "answers.h"
#include "notices.h"
#include "lists.h"
#include "repairs.h"
#include "networks.h"

const struct hcube_cube *const hcube_stored = hcube_cubes;
const size_t hcube_stored_count = ARRAY_SIZE(hcube_cubes);
const struct hcube_notice *const hcube_notices = notices;
const size_t hcube_notice_count = ARRAY_SIZE(notices);
const struct hcube_writing *const hcube_writings = writings;
const size_t hcube_writing_count = ARRAY_SIZE(writings);
const struct hcube_list *const hcube_lists = lists;
const size_t hcube_list_count = ARRAY_SIZE(lists);
const struct hcube_list_writing *const hcube_list_writings = list_writings;
const size_t hcube_list_writing_count = ARRAY_SIZE(list_writings);
const struct hcube_repairing *const hcube_repairings = repairings;
const size_t hcube_repairing_count = ARRAY_SIZE(repairings);
const struct hcube_networking *const hcube_networkings = networkings;
const size_t hcube_networking_count = ARRAY_SIZE(networkings);

uint32_t hcube_label_stored(const struct hcube_cube *cube, uint32_t job, const struct hcube_closing *closing,
			    uint8_t *labels)
{
	return hcube_label(cube->n, cube->rule, job, cube->faults, cube->table_len, cube->draining, cube->table_len,
			   closing->closed, cube->table_len, labels, HCUBE_LABEL_BYTES(cube->n));
}

uint64_t hcube_why_stored(const struct hcube_cube *cube, uint32_t job, const struct hcube_closing *closing,
			  uint8_t *labels, uint32_t x)
{
	return hcube_why_node(cube->n, cube->rule, job, x, cube->faults, cube->table_len, cube->draining,
			      cube->table_len, closing->closed, cube->table_len, labels, HCUBE_LABEL_BYTES(cube->n));
}

bool hcube_half_is_right(const struct hcube_cube *cube, uint32_t job, const struct hcube_closing *closing,
			 const uint8_t *labels)
{
	return memcmp(labels + HCUBE_HALF(cube->n, job), closing->half, HCUBE_NODES(cube->n)) == 0;
}

bool hcube_labels_are_right(const struct hcube_cube *cube, uint32_t job, const struct hcube_closing *closing,
			    uint8_t *labels)
{
	uint8_t *half = labels + HCUBE_HALF(cube->n, job);

	if (!cube->has_tables) {
		memcpy(half, closing->half, HCUBE_NODES(cube->n));
		return true;
	}
	memset(half, HCUBE_UNTOUCHED, HCUBE_NODES(cube->n));
	return hcube_label_stored(cube, job, closing, labels) == closing->label &&
	       hcube_half_is_right(cube, job, closing, labels);
}

bool hcube_why_is_right(const struct hcube_cube *cube, uint32_t job, const struct hcube_closing *closing,
			uint8_t *labels, uint32_t x)
{
	uint8_t *half = labels + HCUBE_HALF(cube->n, job);

	memset(half, HCUBE_UNTOUCHED, HCUBE_NODES(cube->n));
	if (hcube_why_stored(cube, job, closing, labels, x) != closing->whys[x])
		return false;
	if (x >= HCUBE_NODES(cube->n))
		return !memchr_inv(half, HCUBE_UNTOUCHED, HCUBE_NODES(cube->n));
	return hcube_half_is_right(cube, job, closing, labels);
}

size_t hcube_wrong_whys(const struct hcube_cube *cube, uint32_t job, const struct hcube_closing *closing,
			uint8_t *labels)
{
	size_t wrong = 0, x = hcube_whys(cube);

	while (x-- > 0) /* the refused one first, which labels nothing */
		wrong += !hcube_why_is_right(cube, job, closing, labels, x);
	return wrong;
}

bool hcube_pair_is_right(const struct hcube_cube *cube, uint32_t job, const struct hcube_closing *closing,
			 const uint8_t *labels, uint32_t s, uint32_t d)
{
	const struct hcube_answer *stored = &closing->answers[s * (HCUBE_NODES(cube->n) + 1) + d];
	size_t bytes = HCUBE_LABEL_BYTES(cube->n);
	uint8_t row[HCUBE_ROW_BYTES];

	memset(row, HCUBE_UNTOUCHED, sizeof(row));
	return hcube_hop(cube->n, job, s, d, labels, bytes) == stored->hop &&
	       hcube_why_hop(cube->n, job, s, d, labels, bytes) == stored->why &&
	       hcube_walk(cube->n, job, s, d, labels, bytes, row, sizeof(row)) == stored->walk &&
	       memcmp(row, stored->row, sizeof(row)) == 0;
}

size_t hcube_wrong_pairs(const struct hcube_cube *cube, uint32_t job, const struct hcube_closing *closing,
			 const uint8_t *labels)
{
	size_t wrong = 0;
	uint32_t s, d;

	for (s = 0; s <= HCUBE_NODES(cube->n); s++)
		for (d = 0; d <= HCUBE_NODES(cube->n); d++)
			wrong += !hcube_pair_is_right(cube, job, closing, labels, s, d);
	return wrong;
}

bool hcube_notice_is_right(const struct hcube_notice *notice)
{
	uint8_t table[STORED_TABLE_BYTES];

	memset(table, HCUBE_UNTOUCHED, sizeof(table));
	return hcube_notice_dimension(notice->bytes, notice->len) == notice->dimension &&
	       hcube_read_notice(notice->bytes, notice->len, table, notice->table_len) == notice->read &&
	       memcmp(table, notice->table, sizeof(table)) == 0;
}

size_t hcube_wrong_notices(void)
{
	size_t wrong = 0, k;

	for (k = 0; k < hcube_notice_count; k++)
		wrong += !hcube_notice_is_right(&hcube_notices[k]);
	return wrong;
}

bool hcube_writing_is_right(const struct hcube_writing *writing)
{
	uint8_t bytes[STORED_NOTICE_BYTES];

	memset(bytes, HCUBE_UNTOUCHED, sizeof(bytes));
	return hcube_write_notice(writing->n, writing->table, writing->table_len, bytes, writing->room) ==
		       writing->written &&
	       memcmp(bytes, writing->bytes, sizeof(bytes)) == 0;
}

size_t hcube_wrong_writings(void)
{
	size_t wrong = 0, k;

	for (k = 0; k < hcube_writing_count; k++)
		wrong += !hcube_writing_is_right(&hcube_writings[k]);
	return wrong;
}

bool hcube_list_is_right(const struct hcube_list *list)
{
	uint8_t table[STORED_TABLE_BYTES];

	memset(table, HCUBE_UNTOUCHED, sizeof(table));
	return hcube_read_list(list->n, list->text, list->len, table, list->table_len) == list->read &&
	       memcmp(table, list->table, sizeof(table)) == 0;
}

size_t hcube_wrong_lists(void)
{
	size_t wrong = 0, k;

	for (k = 0; k < hcube_list_count; k++)
		wrong += !hcube_list_is_right(&hcube_lists[k]);
	return wrong;
}

bool hcube_list_writing_is_right(const struct hcube_list_writing *writing)
{
	uint8_t text[STORED_TEXT_BYTES];

	memset(text, HCUBE_UNTOUCHED, sizeof(text));
	return hcube_write_list(writing->n, writing->table, writing->table_len, text, writing->room) ==
		       writing->written &&
	       memcmp(text, writing->text, sizeof(text)) == 0;
}

size_t hcube_wrong_list_writings(void)
{
	size_t wrong = 0, k;

	for (k = 0; k < hcube_list_writing_count; k++)
		wrong += !hcube_list_writing_is_right(&hcube_list_writings[k]);
	return wrong;
}

bool hcube_repairing_is_right(const struct hcube_repairing *repairing)
{
	uint8_t result[STORED_TABLE_BYTES];
	uint16_t row[STORED_NUMBERS];

	memset(result, HCUBE_UNTOUCHED, sizeof(result));
	memset(row, HCUBE_UNTOUCHED, sizeof(row));
	return hcube_repair(repairing->n, repairing->faults, repairing->faults_len, repairing->masks,
			    repairing->masks_len, result, repairing->result_len, row, repairing->row_len) ==
		       repairing->repaired &&
	       memcmp(result, repairing->result, sizeof(result)) == 0 &&
	       memcmp(row, repairing->row, sizeof(row)) == 0;
}

size_t hcube_wrong_repairings(void)
{
	size_t wrong = 0, k;

	for (k = 0; k < hcube_repairing_count; k++)
		wrong += !hcube_repairing_is_right(&hcube_repairings[k]);
	return wrong;
}

bool hcube_networking_is_right(const struct hcube_networking *networking)
{
	uint8_t hops[STORED_HOPS];

	memset(hops, HCUBE_UNTOUCHED, sizeof(hops));
	return hcube_hop_networks(networking->n, networking->networks, networking->job, networking->s, networking->d,
				  networking->network, networking->down, networking->labels, networking->labels_len) ==
		       networking->hop &&
	       hcube_walk_networks(networking->n, networking->networks, networking->job, networking->s, networking->d,
				   networking->labels, networking->labels_len, hops, networking->hops_len) ==
		       networking->walk &&
	       memcmp(hops, networking->hops, sizeof(hops)) == 0;
}

size_t hcube_wrong_networkings(void)
{
	size_t wrong = 0, k;

	for (k = 0; k < hcube_networking_count; k++)
		wrong += !hcube_networking_is_right(&hcube_networkings[k]);
	return wrong;
}
