/* SPDX-License-Identifier: GPL-2.0-only OR MIT */
/*
 * hcube.h: fault-tolerant routing in a hypercube, as C calls it.
 *
 * The rules in whole stand in docs/RULES.md of the source repository: Labels for
 * hcube_label, One hop for hcube_hop, Walk for hcube_walk, Virtual networks for
 * hcube_hop_networks and hcube_walk_networks, Why for the questions that say why,
 * Tables and the notice for the functions that read and write a notice, List text
 * for those that read and write a list, Asking the neighbours for hcube_repair,
 * Refusal numbers for all refusals, To C for the answers.
 *
 * A cube of dimension n, 1 to 12, has the nodes 0 to 2^n - 1. Nodes whose
 * numbers differ in bit i alone are neighbours across dimension i.
 *
 * Fault table: one bit a node, node k in byte k / 8 at bit k % 8 (bit 0 is the
 * lowest), HCUBE_FAULT_BYTES(n) bytes; for n = 1 and 2 the unused high bits
 * are zero. Draining table: the same, for nodes under withdrawal, which still
 * take what is addressed to them and forward nothing. Two jobs, 0 and 1, share
 * these. Closed table: the same, for the nodes that one job closes for its own
 * traffic. For a job a node is faulty if it is in the fault table or in the
 * job's closed table, draining if it is in the draining table alone, and works
 * if it is in none of the three.
 *
 * Label buffer: both jobs' label tables, HCUBE_LABEL_BYTES(n) bytes. The half
 * of job 0 stands first, then that of job 1; each has one byte a node,
 * HCUBE_NODES(n) bytes. A call names its job, and "the label of a node" is the
 * one in that job's half.
 *
 * What holds for every call:
 * - A pointer is not null and its bytes may be read (where it is not const,
 *   also written) for the whole length given beside it, also when that length
 *   is a wrong one. Length 0 is allowed, with any pointer that is not null.
 * - A length counts bytes; beside a pointer to uint16_t it counts numbers, and
 *   the pointer is aligned as a uint16_t has to be.
 * - A buffer that is not const shares no byte with another of the same call.
 *   Nobody else changes a lent buffer during the call, but for the other job's
 *   half of a label buffer. Nothing of a buffer is kept after the call.
 * - The call writes to no const buffer, to no byte outside its buffers, and to
 *   no byte of the other job's half.
 * - Refusals are tested in the order in which they are listed; the first that
 *   applies is the answer, with zero in every other field; only where a notice
 *   is read has it a value, the place of the number concerned. On a refusal
 *   the call changes no byte of any buffer.
 * - Every input has one answer. There is no state, no allocation, no lock.
 *
 * What may be done at the same time, on several processors:
 * - A job's half is that job's alone. A call for the other job reads and writes
 *   no byte of it, whatever it holds and whether or not it changes meanwhile.
 *   So in one label buffer one job may be labelled while the other is labelled,
 *   hops or walks.
 * - Within one job, any number of hops and walks may go on at once, and of
 *   hcube_why_hop, which only reads. While the job is labelled, by hcube_label or
 *   by hcube_why_node, nobody else reads or changes its half.
 * - The tables that are lent to labelling may be lent to both jobs at once.
 *   Nobody changes them meanwhile.
 */
#ifndef HCUBE_H
#define HCUBE_H

#ifdef __KERNEL__
#include <linux/types.h>
#else
#include <stddef.h>
#include <stdint.h>
#endif

#ifdef __cplusplus
extern "C" {
#endif

/* A small function of this header itself; the archive has none of these. */
#if defined(__cplusplus) || defined(__KERNEL__) ||                             \
    (defined(__STDC_VERSION__) && __STDC_VERSION__ >= 199901L)
#define HCUBE_INLINE static inline
#else
#define HCUBE_INLINE static __inline__ /* C89, of compilers that have it */
#endif

/* The version of this interface. Whatever a program that was right with an
 * earlier one would notice raises MAJOR, what is new MINOR, all else PATCH. */
#define HCUBE_VERSION_MAJOR 1
#define HCUBE_VERSION_MINOR 5
#define HCUBE_VERSION_PATCH 0
#define HCUBE_VERSION                                                          \
    (HCUBE_VERSION_MAJOR * 10000 + HCUBE_VERSION_MINOR * 100 +                 \
     HCUBE_VERSION_PATCH)

/* The largest cube, and its sizes in bytes, as plain numbers: #if takes them. */
#define HCUBE_DIMENSION_MAX 12
#define HCUBE_NODES_MAX 4096
#define HCUBE_LABEL_BYTES_MAX 8192
#define HCUBE_FAULT_BYTES_MAX 512
#define HCUBE_NOTICE_BYTES_MAX 4099 /* the longest notice */
#define HCUBE_LIST_BYTES_MAX 12913  /* the longest list that is written */
#define HCUBE_NETWORKS_MAX 5
#define HCUBE_HOPS_BYTES_MAX 120 /* room for the hops of every walk by networks */

/* Sizes in bytes: of one job's labels, a label buffer with both jobs' halves, a
 * fault, draining or closed table, a walk's row. HCUBE_NODES(n) also is how many
 * numbers the masks and the row of hcube_repair have. Test n first, or take it
 * from an answer that was accepted: C leaves a shift open that is as wide as
 * size_t or wider, so with any other n these may be any number. */
#ifdef __cplusplus
#define HCUBE_NODES(n) (static_cast<size_t>(1) << (n))
#else
#define HCUBE_NODES(n) ((size_t)1 << (n))
#endif
#define HCUBE_LABEL_BYTES(n) (2 * HCUBE_NODES(n))
#define HCUBE_FAULT_BYTES(n) ((HCUBE_NODES(n) + 7) / 8)
#define HCUBE_ROW_BYTES 34

/* The bytes of a hop list for hcube_walk_networks: no walk by so many networks has
 * more hops, whatever the labels. */
#define HCUBE_HOPS_BYTES(n, networks) (2 * (n) * (networks))

/* Where the half of job 0 or 1 begins in a label buffer, in bytes: the label of
 * node k is labels[HCUBE_HALF(n, job) + k]. */
#define HCUBE_HALF(n, job) ((job) * HCUBE_NODES(n))

/* No labelling of an n-cube takes more exchanges, whichever nodes work and by
 * either rule (see hcube_label). */
#define HCUBE_EXCHANGES_MAX(n) (HCUBE_NODES(n) - 1)

/* Labels. */
#define HCUBE_SAFE 0
#define HCUBE_ORDINARY 1 /* ordinarily unsafe: some neighbour is safe */
#define HCUBE_STRONG 2   /* strongly unsafe: no neighbour is safe */
#define HCUBE_FAULTY 3   /* or closed by the job */
#define HCUBE_DRAINING 4 /* forwards nothing, but may be a destination */

/* Rules by which nodes are labelled. The number says how many neighbours that
 * do not work or are unsafe make a node unsafe; two that do not work suffice by
 * either rule. */
#define HCUBE_RULE_LEE_HAYES 2 /* the older one */
#define HCUBE_RULE_CHIU_WU 3

/* Refusals. 0 is none: the call was accepted. */
#define HCUBE_ACCEPTED 0
#define HCUBE_BAD_DIMENSION 1    /* dimension not 1 to 12 */
#define HCUBE_BAD_LENGTH 2       /* a lent buffer is not exactly its length */
#define HCUBE_UNUSED_BIT 3       /* unused bit set: one of the three tables */
#define HCUBE_BAD_LABEL 4        /* a label byte above 4, in the job's half */
#define HCUBE_BAD_NODE 5         /* a node number is 2^n or more */
#define HCUBE_FAULTY_SOURCE 6    /* source or current node has label 3 or 4; a
                                  * hop at a draining destination delivers */
#define HCUBE_FAULTY_TARGET 7    /* the walk's destination has label 3 */
#define HCUBE_TOO_MANY_HOPS 8    /* the walk needs more than n + 4 hops */
#define HCUBE_CUT_SHORT 9        /* bytes end before a number is complete */
#define HCUBE_BAD_GROUP 10       /* second group zero or with its high bit */
#define HCUBE_BAD_COUNT 11       /* count above 2^n */
#define HCUBE_BAD_ADDRESS 12     /* an address, or a node of a list, is 2^n or
                                  * more */
#define HCUBE_NO_ROOM 13         /* a lent buffer is too short for what is to be
                                  * written, or for the most hops of a walk */
#define HCUBE_BAD_LIST 14        /* list text that is no list */
#define HCUBE_BAD_NETWORK 15     /* not 1 to 5 networks, or a current network that
                                  * the board lacks, or a direction above 1 */
#define HCUBE_NO_NETWORK 16      /* the next hop needs a network that the board
                                  * lacks */
#define HCUBE_BAD_MASK 17        /* a mask with a bit at n or above */
#define HCUBE_BAD_RULE 18        /* the rule's number is not 2 or 3 */
#define HCUBE_BAD_JOB 19         /* the job's number is not 0 or 1 */

/* Kinds of a hop's answer. */
#define HCUBE_DELIVER 0
#define HCUBE_HOP 1
#define HCUBE_HALTED 2

/* Kinds of a walk's answer. */
#define HCUBE_WALK_DELIVERED 0
#define HCUBE_WALK_HALTED 1

/* Causes of a node's label. */
#define HCUBE_CAUSE_NONE 0   /* it is not unsafe */
#define HCUBE_CAUSE_FAULTY 1 /* two neighbours are faulty or draining */
#define HCUBE_CAUSE_MARKED 2 /* three (HCUBE_RULE_LEE_HAYES: two) are faulty,
                              * draining or marked in an earlier round */

/* A refusal in words, for logs. */
HCUBE_INLINE const char *hcube_refusal_text(uint32_t number)
{
    switch (number) {
    case HCUBE_ACCEPTED:
        return "accepted";
    case HCUBE_BAD_DIMENSION:
        return "the dimension is not 1 to 12";
    case HCUBE_BAD_LENGTH:
        return "a lent buffer is not exactly its length";
    case HCUBE_UNUSED_BIT:
        return "an unused bit of a table is set";
    case HCUBE_BAD_LABEL:
        return "a label byte is above 4";
    case HCUBE_BAD_NODE:
        return "a node number is 2^n or more";
    case HCUBE_FAULTY_SOURCE:
        return "the source or current node does not work";
    case HCUBE_FAULTY_TARGET:
        return "the destination is faulty";
    case HCUBE_TOO_MANY_HOPS:
        return "the walk needs more than n + 4 hops";
    case HCUBE_CUT_SHORT:
        return "the bytes end before a number is complete";
    case HCUBE_BAD_GROUP:
        return "a number's second group is zero or has its high bit set";
    case HCUBE_BAD_COUNT:
        return "the count is above 2^n";
    case HCUBE_BAD_ADDRESS:
        return "an address is 2^n or more";
    case HCUBE_NO_ROOM:
        return "a lent buffer is too short";
    case HCUBE_BAD_LIST:
        return "the text is not a list such as 0-3,8";
    case HCUBE_BAD_NETWORK:
        return "not 1 to 5 networks, or no such network or direction";
    case HCUBE_NO_NETWORK:
        return "the next hop needs a network that the board lacks";
    case HCUBE_BAD_MASK:
        return "a mask has a bit at n or above";
    case HCUBE_BAD_RULE:
        return "the rule's number is not 2 or 3";
    case HCUBE_BAD_JOB:
        return "the job's number is not 0 or 1";
    default:
        return "no such refusal";
    }
}

/* The scan that took a hop in words, for logs: of an answer of hcube_why_hop of
 * kind HCUBE_HOP. The other kinds have no scan, and 0 in its place. */
HCUBE_INLINE const char *hcube_scan_text(uint32_t scan)
{
    switch (scan) {
    case 0:
        return "to the destination, which is draining";
    case 1:
        return "forward to a safe node";
    case 2:
        return "forward to an ordinarily unsafe node";
    case 3:
        return "forward to a strongly unsafe node";
    case 4:
        return "aside to a safe node";
    case 5:
        return "aside to an ordinarily unsafe node";
    default:
        return "no such scan";
    }
}

/* Parts of every answer, in its low 32 bits:
 * refusal * 16777216 + kind * 65536 + value. */
#define HCUBE_REFUSAL(answer) (((answer) >> 24) & 0xff)
#define HCUBE_KIND(answer) (((answer) >> 16) & 0xff)
#define HCUBE_VALUE(answer) ((answer) & 0xffff)

/* Parts of the answer of hcube_read_notice above these, zero if it refuses:
 * dimension * 2^48 + count * 2^32. They want the whole answer, of 64 bits. */
#define HCUBE_NOTICE_DIMENSION(answer) (((answer) >> 48) & 0xffff)
#define HCUBE_NOTICE_COUNT(answer) (((answer) >> 32) & 0xffff)

/* Parts of the answer of hcube_why_node above these, zero if it refuses:
 * cause * 2^56 + third * 2^48 + second * 2^40 + first * 2^32. They want the
 * whole answer, of 64 bits. */
#define HCUBE_WHY_CAUSE(answer) (((answer) >> 56) & 0xff)
#define HCUBE_WHY_FIRST(answer) (((answer) >> 32) & 0xff)
#define HCUBE_WHY_SECOND(answer) (((answer) >> 40) & 0xff)
#define HCUBE_WHY_THIRD(answer) (((answer) >> 48) & 0xff)

/* Parts of the value of hcube_why_hop, of kind HCUBE_HOP: scan * 256 +
 * dimension. */
#define HCUBE_WHY_SCAN(answer) (((answer) >> 8) & 0xff)
#define HCUBE_WHY_DIMENSION(answer) ((answer) & 0xff)

/* Parts of a hop by networks, which is network * 16 + dimension: of the value of
 * hcube_hop_networks, of kind HCUBE_HOP, and of a byte of the hop list of
 * hcube_walk_networks. */
#define HCUBE_HOP_NETWORK(hop) (((hop) >> 4) & 0xf)
#define HCUBE_HOP_DIMENSION(hop) ((hop) & 0xf)

/*
 * Labels every node of the cube for one job, into that job's half of `labels`.
 * `faults` gives the faulty nodes of the cabinet, `draining` the draining ones,
 * and `closed` those that this job closes. A node in `faults` or in `closed`
 * counts as faulty and gets label 3, in `draining` or not; a node in `draining`
 * alone gets label 4. The others work.
 *
 * A working node is unsafe if it has two or more faulty neighbours, or `rule`
 * or more that are faulty or unsafe, where a draining neighbour counts as
 * faulty; this is applied to all nodes at once, in one exchange of their states
 * after the other, until one brings nothing new. An unsafe node is strongly
 * unsafe if none of its neighbours is safe, otherwise ordinarily unsafe. Hop
 * and walk go by the labels, whichever rule made them; all cards of a cabinet
 * label one job by one rule.
 *
 * So the number of exchanges and the labels of working nodes are the same as if
 * the draining nodes were faulty. Where no bit of `draining` is set, answer and
 * labels are those of the faulty nodes alone, and no label is 4. Answer and
 * labels are those of a cabinet of the job's own, with nothing closed, whose
 * fault table has the bits of `faults` and those of `closed`. They are the same
 * whatever the other job closes, and in whichever order the jobs are labelled.
 *
 * From HCUBE_RULE_LEE_HAYES to HCUBE_RULE_CHIU_WU a node that is safe stays
 * safe, no label grows, and a walk that was delivered still is. With
 * HCUBE_RULE_LEE_HAYES, where some node is safe no working node is strongly
 * unsafe, and no walk is longer than the distance and two hops.
 *
 * How many exchanges there can be, all of it proved: at most one more than there
 * are working nodes; at most two more than there are unsafe nodes with at most
 * one neighbour of label 3 or 4, for the first exchange finds all other unsafe
 * nodes; and never more than HCUBE_EXCHANGES_MAX(n). Each exchange but the last
 * makes some node unsafe.
 * The most that were found, for n up to 5 by trying every table, above it by a
 * search, so that there may be more:
 *   n                     1  2  3  4   5   6   7   8   9   10   11   12
 *   HCUBE_RULE_LEE_HAYES  1  2  4  6   9  13  17  22  28   34   41   49
 *   HCUBE_RULE_CHIU_WU    1  2  3  5  10  19  33  52  73  104  139  172
 *
 * Refusals, in order:
 *   1   n is not 1 to 12
 *   18  rule is not HCUBE_RULE_LEE_HAYES or HCUBE_RULE_CHIU_WU
 *   19  job is not 0 or 1
 *   2   faults_len, draining_len or closed_len is not HCUBE_FAULT_BYTES(n), or
 *       labels_len not HCUBE_LABEL_BYTES(n)
 *   3   n is 1 or 2 and a bit for a node of 2^n or more is set in `faults`, in
 *       `draining` or in `closed`
 * Accepted: kind 0, value the number of exchanges, the last of which brought
 * nothing new: 1 at least. All 2^n bytes of the job's half are written; what
 * they held before does not matter. No byte of the other half changes.
 */
uint32_t hcube_label(uint32_t n, uint32_t rule, uint32_t job,
                     const uint8_t *faults, size_t faults_len,
                     const uint8_t *draining, size_t draining_len,
                     const uint8_t *closed, size_t closed_len,
                     uint8_t *labels, size_t labels_len);

/*
 * Decides one hop of a job at node c, for a message to node d. Of the bytes of
 * `labels` only those of c and of its n neighbours in the job's half are read.
 * Nothing is written.
 *
 * Refusals, in order:
 *   1   n is not 1 to 12
 *   19  job is not 0 or 1
 *   2   labels_len is not HCUBE_LABEL_BYTES(n)
 *   5   c or d is 2^n or more
 *   4   the label of c or of a neighbour of c is above 4
 *   6   the label of c is 3, or it is 4 and c is not d
 * Accepted: kind HCUBE_DELIVER (c is d) with value 0; HCUBE_HOP with the
 * dimension to cross as value; or HCUBE_HALTED with value 0.
 *
 * With l the number of bits in which c and d differ, the dimension is the first
 * hit of these scans, each from dimension 0 up (forward: c and d differ in it;
 * spare: they do not; a draining neighbour counts as faulty from scan 1 on):
 *   0  c and d differ in one bit alone and d is draining: the hop to d
 *   1  forward, the neighbour is safe
 *   2  forward, the neighbour is safe or ordinarily unsafe
 *   3  forward, the neighbour is not faulty, and c is strongly unsafe or l <= 2
 *   4  spare, the neighbour is safe
 *   5  spare, the neighbour is safe or ordinarily unsafe
 */
uint32_t hcube_hop(uint32_t n, uint32_t job, uint32_t c, uint32_t d,
                   const uint8_t *labels, size_t labels_len);

/*
 * Walks for a job from node s to node d, one hcube_hop after the other, over a
 * half of any label bytes 0 to 4; the other half may hold any bytes at all. d
 * may be draining. Whatever the half, every node of the walk before its last
 * works, and none is visited twice. So a frame that is sent on by hcube_hop,
 * each node asking it with the same labels, has passed no node twice when it
 * arrives or halts. With the labels that hcube_label wrote it always does one of
 * the two; with others it may go round for ever, and then the walk is refused
 * with 8.
 *
 * With the labels that hcube_label wrote, from a node that works to one that
 * works or is draining, l bits apart: if any node is safe the walk is delivered,
 * in l hops where s or d is safe, otherwise in at most l + 2 from an ordinarily
 * unsafe s and at most l + 4 from a strongly unsafe one. If no node is safe it
 * is delivered in l hops, or halts where each neighbour nearer d is faulty or
 * draining.
 *
 * Some node is safe, so that every such walk is delivered, while fewer than n
 * nodes are out of work (faulty, draining or closed by the job; a node in two
 * tables counts once). By HCUBE_RULE_LEE_HAYES it is so while twice as many are
 * fewer than n + 2. One more may leave no node safe: by HCUBE_RULE_CHIU_WU the
 * n neighbours of node 0 do, for n of 2 and more.
 *
 * Refusals, in order:
 *   1   n is not 1 to 12
 *   19  job is not 0 or 1
 *   2   labels_len is not HCUBE_LABEL_BYTES(n), or row_len not HCUBE_ROW_BYTES
 *   5   s or d is 2^n or more
 *   4   any byte of the job's half is above 4
 *   6   the label of s is 3 or 4, also where s is d
 *   7   the label of d is 3
 *   8   after n + 4 hops the decision is another hop
 * Accepted: kind HCUBE_WALK_DELIVERED or HCUBE_WALK_HALTED, value the number
 * of hops. All 34 bytes of `row` are written: the nodes visited, s first, two
 * bytes a node, low byte first, in the first value + 1 places, each node once;
 * and zero in the places after them.
 */
uint32_t hcube_walk(uint32_t n, uint32_t job, uint32_t s, uint32_t d,
                    const uint8_t *labels, size_t labels_len,
                    uint8_t *row, size_t row_len);

/*
 * Decides one hop of a job at node c, for a message to node d, on a board that has
 * `networks` virtual networks, by Algorithm ROUTE_C (Chiu and Wu 1994, figure 4).
 * The message came to c in `network`, going up (bits from 0 to 1) where `down` is
 * 0 and down (from 1 to 0) where it is 1; a message that starts is in network 0,
 * going up. Of the bytes of `labels` only those of c and of its n neighbours in
 * the job's half are read, each once. Nothing is written.
 *
 * A hop that goes on in the message's direction stays in its network. One that
 * turns from up to down stays in it too; one that turns from down to up takes the
 * next network.
 *
 * Refusals, in order:
 *   1   n is not 1 to 12
 *   15  networks is not 1 to HCUBE_NETWORKS_MAX, or network is `networks` or more,
 *       or down is above 1
 *   19  job is not 0 or 1
 *   2   labels_len is not HCUBE_LABEL_BYTES(n)
 *   5   c or d is 2^n or more
 *   4   the label of c or of a neighbour of c is above 4
 *   6   the label of c is 3, or it is 4 and c is not d
 *   16  the hop would be in network `networks`, which the board lacks; no other
 *       hop is tried in its place
 * Accepted: kind HCUBE_DELIVER (c is d) with value 0; HCUBE_HOP with the network
 * and the dimension of the hop as HCUBE_HOP_NETWORK and HCUBE_HOP_DIMENSION of
 * the value; or HCUBE_HALTED with value 0. After the hop the message is in that
 * network, and goes down where bit `dimension` of c is 1.
 *
 * The hop to d is tried first, where c and d differ in one bit alone and d is
 * draining. Then FORWARD is called for the forward dimensions (c and d differ in
 * it) and, where it makes no hop, for the spare ones. It tries these blocks, each
 * from dimension 0 up; l is the number of bits in which c and d differ, "on" is
 * the message's direction, and a draining neighbour counts as faulty:
 *   1  on, the neighbour is safe
 *   2  turning, the neighbour is safe
 *   3  on, the neighbour is safe or ordinarily unsafe
 *   4  turning, the neighbour is safe or ordinarily unsafe; but from down to up
 *      it hops only in network 0 or where l <= 2
 *   5  on, the neighbour is not faulty, and c is strongly unsafe or l <= 2
 *   6  turning, the neighbour is not faulty, and c is strongly unsafe or l <= 2;
 *      but from down to up it hops only where l <= 2
 * The first block that finds a dimension ends the call; where it may not hop, the
 * call ends without one.
 */
uint32_t hcube_hop_networks(uint32_t n, uint32_t networks, uint32_t job,
                            uint32_t c, uint32_t d, uint32_t network,
                            uint32_t down,
                            const uint8_t *labels, size_t labels_len);

/*
 * Walks for a job from node s to node d on a board that has `networks` virtual
 * networks: one hcube_hop_networks after the other, from network 0, going up, over
 * a half of any label bytes 0 to 4. d may be draining.
 *
 * Whatever the half: the pair of network and direction never goes back, so that
 * all hops up in a network come before its hops down; the walk has at most
 * HCUBE_HOPS_BYTES(n, networks) hops and uses no channel (node, dimension and
 * network) twice; and where it is delivered or halted, a board with more networks
 * gives the same answer and the same hops. The channels stand in an order, the same
 * for all messages and labels, in which each hop of each message comes after the
 * hop before it: so messages that hold a channel while they wait for the next
 * never wait for one another in a circle.
 *
 * With the labels that hcube_label wrote, from a node that works to one that works
 * or is draining, l bits apart: if any node is safe, five networks deliver, in l
 * hops where s is safe, and otherwise in at most l + 2 from an ordinarily unsafe s
 * and at most l + 4 from a strongly unsafe one. Every node before the last works.
 *
 * Refusals, in order:
 *   1   n is not 1 to 12
 *   15  networks is not 1 to HCUBE_NETWORKS_MAX
 *   19  job is not 0 or 1
 *   2   labels_len is not HCUBE_LABEL_BYTES(n)
 *   13  hops_len is below HCUBE_HOPS_BYTES(n, networks)
 *   5   s or d is 2^n or more
 *   4   any byte of the job's half is above 4
 *   6   the label of s is 3 or 4, also where s is d
 *   7   the label of d is 3
 *   16  the next hop would be in network `networks`, which the board lacks
 * Accepted: kind HCUBE_WALK_DELIVERED or HCUBE_WALK_HALTED, value the number of
 * hops. As many bytes of `hops` are written, one a hop, the first hop first, each
 * with HCUBE_HOP_NETWORK and HCUBE_HOP_DIMENSION; those behind them keep their
 * content.
 */
uint32_t hcube_walk_networks(uint32_t n, uint32_t networks, uint32_t job,
                             uint32_t s, uint32_t d,
                             const uint8_t *labels, size_t labels_len,
                             uint8_t *hops, size_t hops_len);

/*
 * Says why node x has its label. It is lent what hcube_label is lent, labels
 * every node alike, into the job's half of `labels`, and watches x meanwhile.
 *
 * An unsafe node was marked by one of the rounds, which are counted from 1; each
 * exchange but the last is one. In that round it met the rule, and in no earlier
 * one. Its cause is what it met the rule by: two neighbours that are faulty, if
 * it has two, and otherwise as many as the rule's number that are faulty or were
 * marked in an earlier round. A draining neighbour counts as faulty here, and so
 * does one that the job closes. The neighbours named are those across the lowest
 * dimensions, and each that is unsafe has a smaller round of its own: whoever
 * asks this of a neighbour that is named, and so on, comes to a node that does
 * not work in at most as many steps as the round of x.
 *
 * Refusals, in order; those of hcube_label, then that of the node:
 *   1   n is not 1 to 12
 *   18  rule is not HCUBE_RULE_LEE_HAYES or HCUBE_RULE_CHIU_WU
 *   19  job is not 0 or 1
 *   2   faults_len, draining_len or closed_len is not HCUBE_FAULT_BYTES(n), or
 *       labels_len not HCUBE_LABEL_BYTES(n)
 *   3   n is 1 or 2 and a bit for a node of 2^n or more is set in `faults`, in
 *       `draining` or in `closed`
 *   5   x is 2^n or more
 * Accepted: the kind is the label of x. All 2^n bytes of the job's half are
 * written, as hcube_label writes them; no byte of the other half changes. The
 * other fields, of which those not named here are zero:
 *   unsafe: the value is the round that marked x. Cause HCUBE_CAUSE_FAULTY, with
 *       the dimensions of the two neighbours as first and second; or
 *       HCUBE_CAUSE_MARKED, with those of the neighbours as first, second and,
 *       by HCUBE_RULE_CHIU_WU, third. The dimensions rise.
 *   safe: cause HCUBE_CAUSE_NONE; first counts the neighbours that are faulty or
 *       draining, second those that are not safe.
 *   faulty or draining: the label alone.
 */
uint64_t hcube_why_node(uint32_t n, uint32_t rule, uint32_t job, uint32_t x,
                        const uint8_t *faults, size_t faults_len,
                        const uint8_t *draining, size_t draining_len,
                        const uint8_t *closed, size_t closed_len,
                        uint8_t *labels, size_t labels_len);

/*
 * Says why hcube_hop decides as it does, with the same arguments: which of its
 * scans took the dimension. Of the bytes of `labels` only those of c and of its
 * n neighbours in the job's half are read. Nothing is written.
 *
 * Refusals, in order; those of hcube_hop:
 *   1   n is not 1 to 12
 *   19  job is not 0 or 1
 *   2   labels_len is not HCUBE_LABEL_BYTES(n)
 *   5   c or d is 2^n or more
 *   4   the label of c or of a neighbour of c is above 4
 *   6   the label of c is 3, or it is 4 and c is not d
 * Accepted: kind HCUBE_DELIVER with value 0; HCUBE_HOP with scan and dimension
 * as HCUBE_WHY_SCAN and HCUBE_WHY_DIMENSION; or HCUBE_HALTED with value 0. Kind
 * and dimension are those of hcube_hop. The dimension is the lowest that the scan
 * takes, and no scan before it, from 0 on, takes any; where it is halted none
 * takes any.
 */
uint32_t hcube_why_hop(uint32_t n, uint32_t job, uint32_t c, uint32_t d,
                       const uint8_t *labels, size_t labels_len);

/* The node at a place of a walk's row, 0 to 16: place 0 has the source, the
 * place of the hop count the node where the walk ended. */
HCUBE_INLINE uint32_t hcube_row_node(const uint8_t *row, size_t place)
{
    return row[2 * place] + 256u * row[2 * place + 1];
}

/*
 * Reads the dimension at the start of a notice, and nothing behind it: so a
 * caller can size the fault table before hcube_read_notice fills it.
 *
 * Refusals, in order; what a number is, hcube_read_notice says:
 *   9   `bytes` ends before the number is complete
 *   10  its second group is zero or has its high bit set
 *   1   the dimension is not 1 to 12
 * The value of a refusal is the place where the number begins, which is 0.
 * Accepted: kind 0, value the dimension. Then hcube_read_notice, with the same
 * bytes and a table of HCUBE_FAULT_BYTES(value) bytes, answers this dimension or
 * refuses, with 9 to 12, something behind it. Where this refuses it refuses
 * alike, whichever table it is lent.
 */
uint32_t hcube_notice_dimension(const uint8_t *bytes, size_t bytes_len);

/*
 * Reads the notice at the start of `bytes` into the fault table `faults`.
 *
 * A notice is a row of numbers: dimension; count of faulty nodes; the first
 * faulty node; for each later one, in rising order, its distance from the one
 * before, less one. A number has one or two groups of seven bits, lowest
 * first; the high bit is set when another group follows. What stands after the
 * notice is not read.
 *
 * Refusals, from left to right; at each number
 *   9   `bytes` ends before the number is complete
 *   10  its second group is zero or has its high bit set
 * and then, by which number it is,
 *   1   the dimension is not 1 to 12
 *   2   after the dimension: faults_len is not HCUBE_FAULT_BYTES(dimension)
 *   11  the count is above 2^dimension
 *   12  an address is 2^dimension or more
 * The value of a refusal is the place where the number concerned begins, in
 * bytes from the first of `bytes`: for 9 and 10 that of the number itself
 * (bytes_len, if nothing of it is there), for 1 and 2 that of the dimension,
 * which is 0, for 11 that of the count, for 12 that of the address. The bytes
 * 04 02 81 00 and a fault table of 2 bytes give refusal 10 and value 2.
 * Accepted: dimension and count, kind 0, and as value how many bytes the notice
 * took. All of `faults` is overwritten.
 *
 * Where the dimension is not known beforehand, the table is sized by it:
 *   uint8_t faults[HCUBE_FAULT_BYTES_MAX];
 *   uint32_t first = hcube_notice_dimension(bytes, bytes_len);
 *   if (HCUBE_REFUSAL(first) == HCUBE_ACCEPTED)
 *       read = hcube_read_notice(bytes, bytes_len, faults,
 *                                HCUBE_FAULT_BYTES(HCUBE_VALUE(first)));
 */
uint64_t hcube_read_notice(const uint8_t *bytes, size_t bytes_len,
                           uint8_t *faults, size_t faults_len);

/*
 * Writes the notice of the fault table `faults` of an n-cube to the start of
 * `out`: what hcube_read_notice reads. Each table has one notice, so the bytes
 * are settled: hcube_read_notice takes as many bytes of `out` as were written,
 * whatever stands behind them, and gives back n and the table; and what it reads
 * from any bytes is written as the very bytes that it took.
 *
 * Refusals, in order:
 *   1   n is not 1 to 12
 *   2   faults_len is not HCUBE_FAULT_BYTES(n)
 *   3   n is 1 or 2 and a bit for a node of 2^n or more is set in `faults`
 *   13  the notice is longer than out_len
 * Accepted: kind 0, value the length of the notice in bytes. It is at most
 * 2^n + 3, so HCUBE_NOTICE_BYTES_MAX bytes have room for every notice. The bytes
 * of `out` behind the notice keep their content.
 */
uint32_t hcube_write_notice(uint32_t n, const uint8_t *faults, size_t faults_len,
                            uint8_t *out, size_t out_len);

/*
 * Reads list text, as the Linux kernel prints sets, into the fault table
 * `faults` of an n-cube: 0-3,8 is the nodes 0, 1, 2, 3 and 8.
 *
 * A list is nothing, which is no faults, or entries with one comma between each
 * two. An entry is a number, for that node, or two numbers with a dash between
 * them, for all nodes from the first up to the second; the first is at most the
 * second. A number has one or more of the digits 0 to 9, and the first of several
 * is not 0. Numbers of any length are compared whole. Entries may stand in any
 * order and have nodes in common; each takes at most a step for each of its
 * nodes, so bound text_len where time matters, as in an interrupt. The bytes are ASCII;
 * text_len says where the text ends, and no zero byte does.
 *
 * What this takes the kernel's own bitmap_parselist takes too, and reads as the
 * same set. That takes more; here all of it is refused with 14:
 * - white space around an entry or in place of a comma, line ends before an
 *   entry among it: 0 8
 * - a line end right behind a number or a range, or a zero byte, and then
 *   anything: it is not read
 * - commas before the first entry, behind the last, and more than one between
 *   two: 0-3,,8,
 * - zeros in front of a number: 007
 * - the letter N for the last node: 8-N
 * - the word all for every node, in small letters or large ones
 * - a range, or all, with the first so many of each so many nodes, 0-31:2/4; a
 *   line end behind that is white space, and an entry may follow at once
 * What a user wrote to a file of the kernel's mostly ends in a line end: take that
 * off. A text that it refuses leaves some other set with the kernel; here the
 * table stays as it was.
 *
 * Refusals, in order; the whole text is judged for one before the next:
 *   1   n is not 1 to 12
 *   2   faults_len is not HCUBE_FAULT_BYTES(n)
 *   14  `text` is no list
 *   12  a node is 2^n or more
 * So, whatever n of 1 to 12 is, 9-8 and 99999,0- are refused with 14, and 99999
 * with 12.
 * Accepted: kind 0, value 0. All of `faults` is overwritten: a node is in it
 * that is in an entry, and no other.
 */
uint32_t hcube_read_list(uint32_t n, const uint8_t *text, size_t text_len,
                         uint8_t *faults, size_t faults_len);

/*
 * Writes the list text of the fault table `faults` of an n-cube to the start of
 * `out`, with no zero byte behind it: the same text as the kernel's format
 * %*pbl prints. The entries rise, and each is a whole run of faulty nodes: one
 * node alone as a number, two and more as a range, 0-1. So each table has one
 * text. hcube_read_list, handed that text and n, gives the table back.
 *
 * Refusals, in order:
 *   1   n is not 1 to 12
 *   2   faults_len is not HCUBE_FAULT_BYTES(n)
 *   3   n is 1 or 2 and a bit for a node of 2^n or more is set in `faults`
 *   13  the text is longer than out_len
 * Accepted: kind 0, value the length of the text in bytes: 0 where no node is
 * faulty. HCUBE_LIST_BYTES_MAX bytes have room for every text, and no fewer for
 * the longest, that of n = 12 with every third node working, 2 the first of
 * them. The bytes of `out` behind the text keep their content.
 */
uint32_t hcube_write_list(uint32_t n, const uint8_t *faults, size_t faults_len,
                          uint8_t *out, size_t out_len);

/*
 * Repairs the fault table `faults` of an n-cube by what its nodes say of their
 * neighbours. A notice may be older than the cabinet: a node that died since is
 * not in it, but whoever sits beside that node finds it dead.
 *
 * `masks` has a number for each node: bit i of masks[w] is set where node w finds
 * its neighbour across dimension i dead. Then w names that neighbour. Only the
 * nodes that work by `faults` are heard; the mask of a faulty node names nobody.
 *
 * `result` becomes the old faults and each node that is named by at least one
 * node that is heard. `row` becomes, for each node k that was added, one more
 * than the lowest node that is heard and names k, and 0 for every other node: for
 * an old fault, named or not, and for a node that nobody names.
 *
 * In the cube of n = 4 with the faulty nodes 2, 4, 8 and 15, let masks[1] be 8,
 * masks[11] 2, and the others 0: nodes 1 and 11 both name node 9, across the
 * dimensions 3 and 1. Then `result` has 2, 4, 8, 9 and 15, row[9] is 2, and the
 * rest of `row` is 0.
 *
 * Asking again with the result and the same masks adds nothing, and gives a row
 * of zeros: nobody is heard then who was not heard before, and whom those name is
 * in the table already. What a node said that was itself named counts all the
 * same, for the old table called it working.
 *
 * `result` is another buffer than `faults`: who is heard goes by the old table to
 * the end, so a table is not repaired in place.
 *
 * The result is a fault table as any other: hcube_label takes it, and so does
 * hcube_write_notice. A driver repairs the table of the last notice and labels
 * anew, here with bytes for HCUBE_FAULT_BYTES(n):
 *   said = hcube_repair(n, faults, bytes, masks, HCUBE_NODES(n),
 *                       result, bytes, row, HCUBE_NODES(n));
 *   if (HCUBE_REFUSAL(said) == HCUBE_ACCEPTED)
 *       said = hcube_label(n, rule, job, result, bytes, draining, bytes,
 *                          closed, bytes, labels, HCUBE_LABEL_BYTES(n));
 *
 * Refusals, in order:
 *   1   n is not 1 to 12
 *   2   faults_len is not HCUBE_FAULT_BYTES(n), masks_len not HCUBE_NODES(n),
 *       result_len not HCUBE_FAULT_BYTES(n), or row_len not HCUBE_NODES(n)
 *   3   n is 1 or 2 and a bit for a node of 2^n or more is set in `faults`
 *   17  a mask has a bit at n or above, be its node faulty or not
 * Accepted: kind 0, value 0. All of `result` and all of `row` is written; what
 * they held before does not matter.
 */
uint32_t hcube_repair(uint32_t n, const uint8_t *faults, size_t faults_len,
                      const uint16_t *masks, size_t masks_len,
                      uint8_t *result, size_t result_len,
                      uint16_t *row, size_t row_len);

#ifdef __cplusplus
}
#endif

#endif
