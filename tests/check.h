/*
 * check.h: lends guarded buffers to the library, holds each call against the
 * reference, and counts what was seen (seen.h). Each comparison is a case of the
 * group at hand (report.h).
 */
#ifndef CHECK_H
#define CHECK_H

#include <stddef.h>
#include <stdint.h>

#include "questions.h"
#include "report.h"
#include "seen.h"

/* Each asks library and reference on guarded copies of the buffers and expects
 * the same answer, the same bytes in each buffer, and every other byte kept; of a
 * walk also that it goes from neighbour to neighbour, that each node before its
 * last works, and that none stands in the row twice. The caller's own writable
 * buffer then has what the library left in it. The library's answer is returned. */
uint32_t check_label(struct label_question asked);
uint64_t check_why_node(struct label_question asked, uint32_t x);
uint32_t check_why_hop(struct hop_question asked);
/* Also that why it is taken agrees with the hop. */
uint32_t check_hop(struct hop_question asked);
uint32_t check_walk(struct walk_question asked);
uint32_t check_net_hop(struct net_hop_question asked);
/* Also that each hop is in a network that the board has, that network and direction
 * never go back, that no channel is used twice, that each node before the last works,
 * and that a walk that is delivered ends at its destination. */
uint32_t check_net_walk(struct net_walk_question asked);
uint32_t check_dimension(const uint8_t *bytes, size_t len);
/* Also that the dimension of the bytes alone agrees with the whole notice. */
uint64_t check_notice(const uint8_t *bytes, size_t len,
                      uint8_t *faults, size_t faults_len);
/* The same, over a fault table of random bytes that is not kept. */
uint64_t check_notice_alone(const uint8_t *bytes, size_t len,
                            size_t faults_len);
uint32_t check_write(struct write_question asked);
uint32_t check_list(struct list_question asked);
/* The same, over a fault table of random bytes that is not kept. */
uint32_t check_list_alone(uint32_t n, const void *text, size_t len);
uint32_t check_write_list(struct write_question asked);
uint32_t check_repair(struct repair_question asked);

#endif
