/* SPDX-License-Identifier: GPL-2.0-only OR MIT */
/*
 * What the module knows of the stored answers, and the comparing with them (stored.c). answers.h, notices.h, lists.h,
 * repairs.h and networks.h have the answers; make_answers.c, make_notices.c, make_lists.c, make_repairs.c and
 * make_networks.c write these five.
 */
#ifndef STORED_H
#define STORED_H

#include "hcube.h"

enum {
	HCUBE_JOBS = 2,
	HCUBE_UNTOUCHED = 0xaa,
	STORED_NOTICE_BYTES = 16,
	STORED_TEXT_BYTES = 40,
	STORED_TABLE_BYTES = 40,
	STORED_NUMBERS = 66,
	STORED_HOPS = 64
};

/* The answers for one pair. The row of a refused walk keeps the byte HCUBE_UNTOUCHED. */
struct hcube_answer {
	uint32_t hop;
	uint32_t why; /* what hcube_why_hop answers */
	uint32_t walk;
	uint8_t row[HCUBE_ROW_BYTES];
};

/* The nodes that a job closes, and what it gets then: the same for either job, whatever the other one closes. */
struct hcube_closing {
	const uint8_t *closed;
	uint32_t label;
	const uint8_t *half; /* of the label buffer */
	const uint64_t *whys; /* what hcube_why_node answers for each node, and for one above the last */
	const struct hcube_answer *answers; /* that of source s and destination d at s * (2^n + 1) + d */
};

struct hcube_cube {
	const char *name;
	uint32_t n;
	uint32_t rule;
	bool has_tables; /* else its labels are given, and there is nothing to label */
	const uint8_t *faults;
	const uint8_t *draining;
	size_t table_len; /* of either, and of a closed table */
	const uint8_t *labels; /* of both jobs, where each closes its own */
	struct hcube_closing closings[HCUBE_JOBS]; /* job 0's own, job 1's own */
};

/* A notice, accepted or refused, and its answers. */
struct hcube_notice {
	uint8_t bytes[STORED_NOTICE_BYTES];
	size_t len; /* of the notice */
	size_t table_len; /* of the fault table that is lent */
	uint32_t dimension; /* what hcube_notice_dimension answers */
	uint64_t read; /* what hcube_read_notice does */
	uint8_t table[STORED_TABLE_BYTES]; /* what the table holds then; a byte that is not written keeps HCUBE_UNTOUCHED */
};

/* A fault table, good or bad, whose notice is written, and the answer. */
struct hcube_writing {
	uint32_t n;
	uint8_t table[STORED_TABLE_BYTES];
	size_t table_len; /* of the table that is lent */
	size_t room; /* of the buffer that is lent */
	uint32_t written; /* what hcube_write_notice answers */
	uint8_t bytes[STORED_NOTICE_BYTES]; /* what the buffer holds then; a byte that is not written keeps HCUBE_UNTOUCHED */
};

/* A list text, accepted or refused, and its answer. */
struct hcube_list {
	uint32_t n;
	uint8_t text[STORED_TEXT_BYTES];
	size_t len; /* of the text */
	size_t table_len; /* of the fault table that is lent */
	uint32_t read; /* what hcube_read_list answers */
	uint8_t table[STORED_TABLE_BYTES]; /* what the table holds then; a byte that is not written keeps HCUBE_UNTOUCHED */
};

/* A fault table, good or bad, whose list text is written, and the answer. */
struct hcube_list_writing {
	uint32_t n;
	uint8_t table[STORED_TABLE_BYTES];
	size_t table_len; /* of the table that is lent */
	size_t room; /* of the buffer that is lent */
	uint32_t written; /* what hcube_write_list answers */
	uint8_t text[STORED_TEXT_BYTES]; /* what the buffer holds then; a byte that is not written keeps HCUBE_UNTOUCHED */
};

/* A fault table and the masks of its nodes, accepted or refused, and the answer. */
struct hcube_repairing {
	uint32_t n;
	uint8_t faults[STORED_TABLE_BYTES];
	uint16_t masks[STORED_NUMBERS];
	size_t faults_len, masks_len, result_len, row_len; /* of what is lent */
	uint32_t repaired; /* what hcube_repair answers */
	uint8_t result[STORED_TABLE_BYTES]; /* what these two hold then; a byte that is not written keeps HCUBE_UNTOUCHED */
	uint16_t row[STORED_NUMBERS];
};

/* A hop and a walk by networks, accepted or refused, and their answers. */
struct hcube_networking {
	uint32_t n, networks, job, s, d;
	uint32_t network, down; /* how the message of the hop came */
	const uint8_t *labels;
	size_t labels_len, hops_len; /* of what is lent */
	uint32_t hop, walk; /* what hcube_hop_networks and hcube_walk_networks answer */
	uint8_t hops[STORED_HOPS]; /* what the list holds then; a byte that is not written keeps HCUBE_UNTOUCHED */
};

extern const struct hcube_cube *const hcube_stored;
extern const size_t hcube_stored_count;
extern const struct hcube_notice *const hcube_notices;
extern const size_t hcube_notice_count;
extern const struct hcube_writing *const hcube_writings;
extern const size_t hcube_writing_count;
extern const struct hcube_list *const hcube_lists;
extern const size_t hcube_list_count;
extern const struct hcube_list_writing *const hcube_list_writings;
extern const size_t hcube_list_writing_count;
extern const struct hcube_repairing *const hcube_repairings;
extern const size_t hcube_repairing_count;
extern const struct hcube_networking *const hcube_networkings;
extern const size_t hcube_networking_count;

/* Ends may be one above the last node, which is refused. */
static inline size_t hcube_pairs(const struct hcube_cube *cube)
{
	return (HCUBE_NODES(cube->n) + 1) * (HCUBE_NODES(cube->n) + 1);
}

/* So many nodes are asked about, one above the last among them; none where there are no tables to label by. */
static inline size_t hcube_whys(const struct hcube_cube *cube)
{
	return cube->has_tables ? HCUBE_NODES(cube->n) + 1 : 0;
}

/* Labels the cube for this job into its half of a buffer of HCUBE_LABEL_BYTES(n) bytes. */
uint32_t hcube_label_stored(const struct hcube_cube *cube, uint32_t job, const struct hcube_closing *closing,
			    uint8_t *labels);

/* Labels alike, unless x is one above the last, and answers why node x has its label. */
uint64_t hcube_why_stored(const struct hcube_cube *cube, uint32_t job, const struct hcube_closing *closing,
			  uint8_t *labels, uint32_t x);

/* Whether the bytes of the job's half are as stored. */
bool hcube_half_is_right(const struct hcube_cube *cube, uint32_t job, const struct hcube_closing *closing,
			 const uint8_t *labels);

/* Labels over bytes that are no labels, and says whether the answer and the half are as stored. */
bool hcube_labels_are_right(const struct hcube_cube *cube, uint32_t job, const struct hcube_closing *closing,
			    uint8_t *labels);

/*
 * Asks why over bytes that are no labels, and says whether the answer and the half are as stored. A refused x leaves
 * the half with those bytes.
 */
bool hcube_why_is_right(const struct hcube_cube *cube, uint32_t job, const struct hcube_closing *closing,
			uint8_t *labels, uint32_t x);

/* How many of all nodes are not. Leaves the half labelled, if there are tables, else as it is. */
size_t hcube_wrong_whys(const struct hcube_cube *cube, uint32_t job, const struct hcube_closing *closing,
			uint8_t *labels);

/* Whether the job's hop, its reason and the walk of this pair are as stored, the row's bytes among them. */
bool hcube_pair_is_right(const struct hcube_cube *cube, uint32_t job, const struct hcube_closing *closing,
			 const uint8_t *labels, uint32_t s, uint32_t d);

/* How many of all pairs are not. */
size_t hcube_wrong_pairs(const struct hcube_cube *cube, uint32_t job, const struct hcube_closing *closing,
			 const uint8_t *labels);

/* Whether both answers to the notice are as stored, and every byte of the table and behind it. */
bool hcube_notice_is_right(const struct hcube_notice *notice);

/* How many of all notices are not. */
size_t hcube_wrong_notices(void);

/* Writes the notice, and says whether the answer and every byte of the buffer and behind it are as stored. */
bool hcube_writing_is_right(const struct hcube_writing *writing);

/* How many of all that are written are not. */
size_t hcube_wrong_writings(void);

/* The same of list text that is read, and of that which is written. */
bool hcube_list_is_right(const struct hcube_list *list);
size_t hcube_wrong_lists(void);
bool hcube_list_writing_is_right(const struct hcube_list_writing *writing);
size_t hcube_wrong_list_writings(void);

/* Repairs the table, and says whether the answer and every byte of result and row and behind them are as stored. */
bool hcube_repairing_is_right(const struct hcube_repairing *repairing);

/* How many of all that are repaired are not. */
size_t hcube_wrong_repairings(void);

/* Hops and walks by networks, and says whether the answers and every byte of the list and behind it are as stored. */
bool hcube_networking_is_right(const struct hcube_networking *networking);

/* How many of all of these are not. */
size_t hcube_wrong_networkings(void);

#endif
