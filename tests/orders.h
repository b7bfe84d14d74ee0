/*
 * orders.h: inputs to which two refusals apply at once. The one that stands first
 * in the order of RULES (Refusal numbers) is given.
 */
#ifndef ORDERS_H
#define ORDERS_H

#include <stddef.h>
#include <stdint.h>

/* An input with both refusals, the first to be tested first. What a row does not
 * name is zero; lengths then fit n, or what n is once narrowed to a byte. Job 0
 * stands for either job: both are asked. */
struct order {
    unsigned first, second;
    uint32_t n, job, s, d; /* s: the walk's source, the hop's current node, or
                            * the node whose label is asked about, or whose mask
                            * it is */
    int rule_more;         /* for labelling: beyond rule 3 */
    uint32_t networks_more, network, down; /* by networks: beyond one network */
    uint8_t fault_byte, draining_byte, closed_byte; /* each byte of the table */
    const char *labels; /* for hop and walk: the job's half, a digit a byte, x for
                         * no label */
    int faults_more, draining_more, closed_more; /* beyond what fits */
    int labels_more, row_more;
    int hops_more; /* beyond room for each hop of as many networks, or of one */
    int out_more; /* beyond what is enough for every notice, or every text */
    const char *text; /* for reading a list */
    uint16_t mask; /* for repairing: of s; the others are 0 */
    int masks_more, result_more; /* and row_more */
};

/* Asks all, and expects that each pair of the refusals of this question, any
 * but those of a notice that is read, is among them. */
void check_order(unsigned question,
                 uint64_t (*answer_to)(const struct order *, uint32_t job),
                 const struct order *orders, size_t count);

/* The labels of the row as the half of this job, in a buffer that fits n, or what n is
 * once narrowed. It stands until the next is made. */
const uint8_t *labels_of(const struct order *order, uint32_t job);

/* Hop and walk by networks in orders_networks.c; labelling, and why a node has its
 * label, in orders_label.c; writing a notice in orders_notice.c; reading and writing a
 * list in orders_list.c; repairing in orders_repair.c. */
void check_network_orders(void);
void check_label_orders(void);
void check_write_orders(void);
void check_list_orders(void);
void check_repair_orders(void);

#endif
