/*
 * asked.h: the last question that was asked of the library, kept where a case is
 * replayed, so that it can be shown with all that was handed over.
 */
#ifndef ASKED_H
#define ASKED_H

#include "questions.h"

/* From now on questions are kept, also those of the processes that are started. */
void keep_questions(void);

/* Each keeps a question as it is before the call; nothing, without the above. */
void keep_label(struct label_question asked);
void keep_hop(struct hop_question asked);
void keep_walk(struct walk_question asked);
void keep_why_node(struct label_question asked, uint32_t x);
void keep_why_hop(struct hop_question asked);
void keep_net_hop(struct net_hop_question asked);
void keep_net_walk(struct net_walk_question asked);
void keep_dimension(const uint8_t *bytes, size_t len);
void keep_notice(const uint8_t *bytes, size_t len, const uint8_t *faults,
                 size_t faults_len);
void keep_write(struct write_question asked);
void keep_list(struct list_question asked);
void keep_write_list(struct write_question asked);
void keep_repair(struct repair_question asked);

/* Prints the one that was kept last, if there is one. */
void print_asked(void);

#endif
