/*
 * seen.h: what the checks have seen so far, by the reference's answers.
 */
#ifndef SEEN_H
#define SEEN_H

#include <stdint.h>

#include "questions.h"

/* By whose call it is: job 0, job 1, or a number that is no job. A notice, its
 * dimension, list text, writing either and repairing have no job and count as
 * job 0. */
enum { NO_JOB = 2, WHOSE };

struct seen {
    unsigned long refusal[QUESTIONS][WHOSE][MOST_REFUSAL + 1];
    unsigned long cube[QUESTIONS][WHOSE][13]; /* accepted calls, by n */
    unsigned long hop_kind[3];         /* deliver, hop, halted */
    unsigned long hop_at[MOST_LABEL + 1]; /* accepted hops, by c's label */
    unsigned long dimension[12];       /* that a hop crossed */
    unsigned long scan[NO_SCAN + 1];   /* that decided a hop; see ref_scan */
    unsigned long walk_kind[2];        /* delivered, halted */
    unsigned long walk_hops[17];       /* of delivered walks */
    unsigned long drained_hops[17];    /* of those to a draining node */
    unsigned long longest[13];         /* delivered in n + 4 hops, by n */
    unsigned long rule[4];             /* by which labels were made */
    unsigned long exchanges[11];       /* 10: ten or more */
    unsigned long label[MOST_LABEL + 1]; /* bytes that labelling wrote */
    unsigned long why_label[MOST_LABEL + 1]; /* of nodes asked about */
    unsigned long cause[4][3];         /* of their labels, by the rule */
    unsigned long named[3][12];        /* dimensions of a cause, by place */
    unsigned long round[12];           /* 10: ten to 99; 11: a hundred, more */
    unsigned long beside_safe[2][3];   /* safe nodes, by faulty neighbours and
                                        * by those that are not safe */
    unsigned long why_scan[NO_SCAN];   /* that took a hop, as it says itself */
    /* by virtual networks: */
    unsigned long net_kind[3];       /* deliver, hop, halted */
    unsigned long net_home[4];       /* hops to a draining node, by their turn */
    unsigned long net_block[2][7];   /* that hops, of the forward and the spare call */
    unsigned long net_ended[2][7];   /* at which such a call ends without a hop */
    unsigned long net_turn[4];       /* from up or down (2) to up or down (1) */
    unsigned long net_network[5];    /* of a hop */
    unsigned long net_dimension[12];
    unsigned long net_lacking[2][6]; /* hops and walks refused with 16, by how many
                                      * networks there are */
    unsigned long net_walk_kind[2];
    unsigned long net_walk_hops[2][41]; /* of walks delivered and halted; 40: more */
    unsigned long net_walk_last[5];  /* the network of a walk's last hop */
    unsigned long groups[3][3]; /* of numbers written, by how many each has: the
                                 * count, the first address, later ones */
    unsigned long digits[2][3][5]; /* of the numbers of lists that are read, and of
                                    * those written, by how many each has: alone,
                                    * the first and the second of a range */
    unsigned long namers[13]; /* nodes that came into a table, by how many that are
                               * heard name them */
    unsigned long across[12]; /* the same nodes, by the dimension to the lowest of
                               * these */
    unsigned long unheard[2]; /* nodes named by faulty ones alone, by whether they
                               * are faulty too */
    unsigned long tables[8]; /* nodes labelled to n = 5, by the tables that they
                              * are in: 1 faults, 2 draining, 4 closed */
};
extern struct seen seen;

/* One more of this number, if there is room for it; if not, the case fails. */
void count_one(unsigned long *counts, size_t room, const char *what,
               uint64_t number);
#define SEEN(counts, number)                                                   \
    count_one(seen.counts, COUNT(seen.counts), #counts, number)
unsigned whose(uint32_t job);

/* Each counts a question with this answer; `labels` is what labelling left. */
void saw_label(struct label_question asked, uint32_t answer,
               const uint8_t *labels);
void saw_hop(struct hop_question asked, uint32_t answer);
void saw_why_node(struct label_question asked, uint64_t answer);
void saw_why_hop(struct hop_question asked, uint32_t answer);
void saw_walk(struct walk_question asked, uint32_t answer);
/* In seen_networks.c; `hops` is what the walk left. */
void saw_net_hop(struct net_hop_question asked, uint32_t answer);
void saw_net_walk(struct net_walk_question asked, uint32_t answer,
                  const uint8_t *hops);
void saw_notice(uint64_t answer);
void saw_dimension(uint32_t answer);
/* `out` is what writing a notice left. */
void saw_write(struct write_question asked, uint32_t answer,
               const uint8_t *out);
void saw_list(struct list_question asked, uint32_t answer);
/* `out` is what writing a text left. */
void saw_write_list(struct write_question asked, uint32_t answer,
                    const uint8_t *out);
/* `row` is what repairing left. */
void saw_repair(struct repair_question asked, uint32_t answer,
                const uint16_t *row);

#endif
