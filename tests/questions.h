/*
 * questions.h: what is asked of the library, each question with all that it is
 * handed. A test that says nothing of a parameter leaves it as fit_label,
 * fit_hop, fit_walk, fit_net_hop, fit_net_walk, fit_write, fit_list, fit_write_list
 * or fit_repair gives it.
 */
#ifndef QUESTIONS_H
#define QUESTIONS_H

#include <stddef.h>
#include <stdint.h>

#include "../include/hcube.h"
#include "reference.h"

/* The largest label and refusal that there is room to count, whether or not
 * they come up yet. One above them fails the test that meets it. */
#define MOST_LABEL 4
#define MOST_REFUSAL 19

enum {
    LABEL,
    HOP,
    WALK,
    WHY_NODE,
    WHY_HOP,
    NET_HOP,
    NET_WALK,
    NOTICE,
    DIMENSION,
    WRITE,
    LIST,
    WRITE_LIST,
    REPAIR,
    QUESTIONS
};

/* Name and refusals of each question; 0 ends the row. A notice, or its
 * dimension alone, is read from left to right; the others test theirs in this
 * order. */
extern const struct question {
    const char *name;
    unsigned refusals[MOST_REFUSAL + 1];
} questions[QUESTIONS];

/* What a question is handed. Why a node has its label is asked by labelling's
 * question and the node, why a hop is taken by the hop's. */
struct label_question {
    uint32_t n, rule, job;
    const uint8_t *faults;
    size_t faults_len;
    const uint8_t *draining;
    size_t draining_len;
    const uint8_t *closed;
    size_t closed_len;
    uint8_t *labels;
    size_t labels_len;
};

struct hop_question {
    uint32_t n, job, c, d;
    const uint8_t *labels;
    size_t labels_len;
};

struct walk_question {
    uint32_t n, job, s, d;
    const uint8_t *labels;
    size_t labels_len;
    uint8_t *row;
    size_t row_len;
};

/* By virtual networks. */
struct net_hop_question {
    uint32_t n, networks, job, c, d, network, down;
    const uint8_t *labels;
    size_t labels_len;
};

struct net_walk_question {
    uint32_t n, networks, job, s, d;
    const uint8_t *labels;
    size_t labels_len;
    uint8_t *hops;
    size_t hops_len;
};

/* Of a notice or of list text. */
struct write_question {
    uint32_t n;
    const uint8_t *faults;
    size_t faults_len;
    uint8_t *out;
    size_t out_len;
};

struct list_question {
    uint32_t n;
    const uint8_t *text;
    size_t text_len;
    uint8_t *faults;
    size_t faults_len;
};

/* The lengths of masks and row count numbers. */
struct repair_question {
    uint32_t n;
    const uint8_t *faults;
    size_t faults_len;
    const uint16_t *masks;
    size_t masks_len;
    uint8_t *result;
    size_t result_len;
    uint16_t *row;
    size_t row_len;
};

/* Questions in which each length is the one that n asks for, the rule is 3, no
 * node is draining or closed, and the job is either one, in turn. `half` has that
 * job's labels. They are put into a label buffer with any bytes in its other half,
 * which stands until the next question of the same kind is made. A test of
 * refusals then changes what is to be refused. */
struct label_question fit_label(uint32_t n, const uint8_t *faults,
                                const uint8_t *half);
struct hop_question fit_hop(uint32_t n, uint32_t c, uint32_t d,
                            const uint8_t *half);
struct walk_question fit_walk(uint32_t n, uint32_t s, uint32_t d,
                              const uint8_t *half, uint8_t *row);

/* In questions_networks.c. The hop is of a message that starts, on a board with all
 * networks; the list has room for as many hops as are asked for, and no more. The
 * label buffers are those of fit_hop and fit_walk. */
struct net_hop_question fit_net_hop(uint32_t n, uint32_t c, uint32_t d,
                                    const uint8_t *half);
struct net_walk_question fit_net_walk(uint32_t n, uint32_t networks, uint32_t s,
                                      uint32_t d, const uint8_t *half,
                                      uint8_t *hops);

/* A fault table of the length that n asks for, and room for every notice, or for
 * every text. */
struct write_question fit_write(uint32_t n, const uint8_t *faults, uint8_t *out);
struct write_question fit_write_list(uint32_t n, const uint8_t *faults,
                                     uint8_t *out);

/* A text and a table of that length. */
struct list_question fit_list(uint32_t n, const uint8_t *text, size_t text_len,
                              uint8_t *faults);

/* Each length is the one that n asks for. */
struct repair_question fit_repair(uint32_t n, const uint8_t *faults,
                                  const uint16_t *masks, uint8_t *result,
                                  uint16_t *row);

/* Copies the job's half out of the question's label buffer; n and job are good. */
void keep_half(struct label_question asked, uint8_t *half);

/* A label buffer with these labels as the half of the job, and as both halves for
 * what is no job; any bytes in the rest. It stands until the next is made. */
const uint8_t *buffer_of(uint32_t n, uint32_t job, const uint8_t *half);

/* Any bytes: labels, others, or both. */
void put_anything(uint8_t *bytes, size_t len);

/* Mostly a dimension, now and then one of the numbers that might be taken for one. */
uint32_t any_dimension(void);

/* Each asks the library alone, with the buffers themselves. */
uint32_t ask_label(struct label_question asked);
uint32_t ask_hop(struct hop_question asked);
uint32_t ask_walk(struct walk_question asked);
uint64_t ask_why_node(struct label_question asked, uint32_t x);
uint32_t ask_why_hop(struct hop_question asked);
uint32_t ask_net_hop(struct net_hop_question asked);
uint32_t ask_net_walk(struct net_walk_question asked);
uint32_t ask_dimension(const uint8_t *bytes, size_t len);
uint64_t ask_notice(const uint8_t *bytes, size_t len, uint8_t *faults,
                    size_t faults_len);
uint32_t ask_write(struct write_question asked);
uint32_t ask_list(struct list_question asked);
uint32_t ask_write_list(struct write_question asked);
uint32_t ask_repair(struct repair_question asked);

/* The node at this place of an accepted walk's row. */
uint32_t row_place(const uint8_t *row, uint32_t k);

/* Whole answers. A refusal has zero in every other field; that of a notice has
 * the place of the number concerned as its value. */
#define REFUSED(refusal) ((uint32_t)(refusal) << 24)
#define NOTICE_REFUSED(refusal, place)                                         \
    (((uint64_t)(refusal) << 24) + (uint64_t)(place))
#define NOTICE_READ(n, count, taken)                                           \
    (((uint64_t)(n) << 48) + ((uint64_t)(count) << 32) + (uint64_t)(taken))

#endif
