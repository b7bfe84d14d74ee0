/*
 * reference.h: the rules of docs/RULES.md once more, in plain C, to hold the
 * library and the listing program against. The first thirteen functions have the
 * same interface as the library's.
 */
#ifndef REFERENCE_H
#define REFERENCE_H

#include <stddef.h>
#include <stdint.h>
#include <stdio.h>

#define MOST_NODES 4096
#define MOST_LABEL_BYTES (2 * MOST_NODES)
#define MOST_FAULT_BYTES 512
#define ROW_PLACES 17
#define ROW_BYTES (2 * ROW_PLACES)
#define MOST_INPUT 16384

/* The largest byte that is a label. */
#define LAST_LABEL 4

uint32_t ref_label(uint32_t n, uint32_t rule, uint32_t job,
                   const uint8_t *faults, size_t faults_len,
                   const uint8_t *draining, size_t draining_len,
                   const uint8_t *closed, size_t closed_len,
                   uint8_t *labels, size_t labels_len);
uint32_t ref_hop(uint32_t n, uint32_t job, uint32_t c, uint32_t d,
                 const uint8_t *labels, size_t labels_len);
uint32_t ref_walk(uint32_t n, uint32_t job, uint32_t s, uint32_t d,
                  const uint8_t *labels, size_t labels_len,
                  uint8_t *row, size_t row_len);
uint64_t ref_why_node(uint32_t n, uint32_t rule, uint32_t job, uint32_t x,
                      const uint8_t *faults, size_t faults_len,
                      const uint8_t *draining, size_t draining_len,
                      const uint8_t *closed, size_t closed_len,
                      uint8_t *labels, size_t labels_len);
uint32_t ref_why_hop(uint32_t n, uint32_t job, uint32_t c, uint32_t d,
                     const uint8_t *labels, size_t labels_len);
uint32_t ref_hop_networks(uint32_t n, uint32_t networks, uint32_t job, uint32_t c,
                          uint32_t d, uint32_t network, uint32_t down,
                          const uint8_t *labels, size_t labels_len);
uint32_t ref_walk_networks(uint32_t n, uint32_t networks, uint32_t job, uint32_t s,
                           uint32_t d, const uint8_t *labels, size_t labels_len,
                           uint8_t *hops, size_t hops_len);
uint32_t ref_notice_dimension(const uint8_t *bytes, size_t len);
uint64_t ref_read_notice(const uint8_t *bytes, size_t len,
                         uint8_t *faults, size_t faults_len);
uint32_t ref_write_notice(uint32_t n, const uint8_t *faults, size_t faults_len,
                          uint8_t *out, size_t out_len);
uint32_t ref_read_list(uint32_t n, const uint8_t *text, size_t text_len,
                       uint8_t *faults, size_t faults_len);
uint32_t ref_write_list(uint32_t n, const uint8_t *faults, size_t faults_len,
                        uint8_t *out, size_t out_len);
uint32_t ref_repair(uint32_t n, const uint8_t *faults, size_t faults_len,
                    const uint16_t *masks, size_t masks_len,
                    uint8_t *result, size_t result_len,
                    uint16_t *row, size_t row_len);

/* Reads the number at *place and moves the place behind it. 0, or the refusal,
 * and then the place still is where that number begins. */
unsigned ref_number(const uint8_t *bytes, size_t len, size_t *place,
                    uint32_t *value);

/* What the listing program prints for this input. */
void ref_listing(const uint8_t *bytes, size_t len, FILE *out);

/* The scan, 1 to 5, that decides at c for d; 0 for the hop to a draining d, which
 * is tried before them; NO_SCAN if none hits or c is d. The dimension goes to
 * *dimension. All inputs are in range; `half` is the job's own. */
#define NO_SCAN 6
unsigned ref_scan(uint32_t n, uint32_t c, uint32_t d, const uint8_t *half,
                  uint32_t *dimension);

/* How a message is routed at c for d, by virtual networks: by which call of FORWARD, 1
 * with the forward dimensions or 2 with the spare ones, and by which of its blocks; 0
 * and 0 for the hop to a draining d, which is tried before them. */
struct ref_routed {
    unsigned call, block;
    uint32_t network, dimension;
    unsigned ended[2]; /* where either call ended without a hop, at block 4 or 6 */
};
/* Whether it is; else it is halted. All inputs are in range, c is not d, and `half` is
 * the job's own. The board may lack the network. */
int ref_route(uint32_t n, uint32_t c, uint32_t d, uint32_t network, uint32_t down,
              const uint8_t *half, struct ref_routed *to);

/* Exchanges, the quiet one included, and final labels of one job, into its half,
 * of three good tables, by rule 2 or 3. */
unsigned ref_exchanges(uint32_t n, uint32_t rule, const uint8_t *faults,
                       const uint8_t *draining, const uint8_t *closed,
                       uint8_t *half);

/* Of three good tables, by rule 2 or 3: each node's label, and the round that
 * marked it, counted from 1; 0 where the node does not work, and NOT_MARKED
 * where it is safe. And what is answered of a node then. */
#define NOT_MARKED 0xffff
struct ref_marks {
    uint8_t label[MOST_NODES];
    uint16_t round[MOST_NODES];
};
void ref_rounds(uint32_t n, uint32_t rule, const uint8_t *faults,
                const uint8_t *draining, const uint8_t *closed,
                struct ref_marks *marks);
uint64_t ref_why(uint32_t n, uint32_t rule, const struct ref_marks *marks,
                 uint32_t x);

/* Length of a fault, draining or closed table. */
size_t ref_fault_bytes(uint32_t n);

/* Length of a label buffer: job 0's half, then job 1's. */
size_t ref_label_bytes(uint32_t n);

/* In how many dimensions c and d differ. */
unsigned ref_distance(uint32_t n, uint32_t c, uint32_t d);

#endif
