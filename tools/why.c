/*
 * why.c: why a node has its label, why a frame takes each of its hops, and by
 * whom a node came into a repaired table, in words. All of it is what the library
 * answers; no rule is applied here. Of those that name a node the library tells the
 * lowest, and the masks the others.
 *
 *   why NOTICE RULE DRAINING CLOSED X      node X, and each that its causes
 *                                          lead to, a line a node
 *   why NOTICE RULE DRAINING CLOSED S D    each hop of a frame from S to D
 *   why NOTICE RULE DRAINING CLOSED W:I..  each node that is added by masks, of
 *                                          which there may be many, a line a node
 *
 * NOTICE is a file with the bytes of a notice. DRAINING and CLOSED are nodes
 * with commas between them, or empty. A mask W:I has the node, then the dimensions
 * across which it finds a neighbour dead, with commas between them. tools/why hands
 * these over, having seen to it that numbers are numbers, and says which exit status
 * means what.
 */
#include <stdio.h>
#include <stdlib.h>
#include <string.h>

#include "hcube.h"

/* Two bytes for each number; what a file has behind these is no notice's. */
#define NOTICE_MAX (2 * (2 + HCUBE_NODES_MAX))

/* Job 1 would do as well: what a job closes matters, and not its number. */
#define JOB 0

static uint32_t n, rule;
static uint8_t faults[HCUBE_FAULT_BYTES_MAX], draining[HCUBE_FAULT_BYTES_MAX];
static uint8_t closed[HCUBE_FAULT_BYTES_MAX], labels[HCUBE_LABEL_BYTES_MAX];

/* Ends the program if an answer is a refusal, and says which, in words. That of
 * a notice has a place. */
static void expect_accepted(const char *what, uint64_t answer)
{
    uint32_t number = (uint32_t)HCUBE_REFUSAL(answer);
    if (number == HCUBE_ACCEPTED)
        return;
    fprintf(stderr, "why: %s refused: %s (refusal %u", what,
            hcube_refusal_text(number), number);
    if (strcmp(what, "notice") == 0)
        fprintf(stderr, " at byte %u, counting from 0",
                (unsigned)HCUBE_VALUE(answer));
    fprintf(stderr, ")\n");
    exit(1);
}

/* ---- the cabinet */

static void read_notice(const char *name)
{
    static uint8_t bytes[NOTICE_MAX];
    FILE *file = fopen(name, "rb");
    size_t len = file ? fread(bytes, 1, sizeof bytes, file) : 0;
    uint32_t first;
    if (!file || ferror(file)) {
        perror("why: the notice could not be read");
        exit(2);
    }
    fclose(file);
    first = hcube_notice_dimension(bytes, len);
    expect_accepted("notice", first);
    n = HCUBE_VALUE(first);
    expect_accepted("notice", hcube_read_notice(bytes, len, faults,
                                                HCUBE_FAULT_BYTES(n)));
}

static void put_nodes(const char *what, const char *list, uint8_t *table)
{
    char *end;
    for (; *list; list = *end ? end + 1 : end) {
        unsigned long k = strtoul(list, &end, 10);
        if (k >= HCUBE_NODES(n)) /* the table has no bit for it */
            expect_accepted(what, (uint64_t)HCUBE_BAD_NODE << 24);
        table[k / 8] |= (uint8_t)(1u << k % 8);
    }
}

static int is_faulty(uint32_t k)
{
    return faults[k / 8] >> k % 8 & 1;
}

/* ---- a node, and those that its causes lead to */

static uint32_t found[HCUBE_NODES_MAX], found_count; /* those asked about */
static uint64_t answers[HCUBE_NODES_MAX];

/* Asks about a node that was not asked about. That labels the cube, too. */
static void find(uint32_t x)
{
    size_t bytes = HCUBE_FAULT_BYTES(n);
    uint64_t answer;
    for (uint32_t i = 0; i < found_count; i++)
        if (found[i] == x)
            return;
    answer = hcube_why_node(n, rule, JOB, x, faults, bytes, draining, bytes,
                            closed, bytes, labels, HCUBE_LABEL_BYTES(n));
    expect_accepted("question", answer);
    answers[x] = answer;
    found[found_count++] = x;
}

static int is_unsafe(uint32_t x)
{
    return HCUBE_KIND(answers[x]) == HCUBE_ORDINARY ||
           HCUBE_KIND(answers[x]) == HCUBE_STRONG;
}

static unsigned round_of(uint32_t x)
{
    return (unsigned)HCUBE_VALUE(answers[x]);
}

/* A closed node has the label of a faulty one; the notice tells them apart. */
static const char *label_text(uint32_t x)
{
    switch (HCUBE_KIND(answers[x])) {
    case HCUBE_SAFE: return "safe";
    case HCUBE_ORDINARY: return "ordinarily unsafe";
    case HCUBE_STRONG: return "strongly unsafe";
    case HCUBE_DRAINING: return "draining";
    default: return is_faulty(x) ? "faulty" : "closed";
    }
}

/* The dimensions that the cause of an unsafe node names, and how many. */
static uint32_t cause_of(uint32_t x, uint32_t dimensions[3])
{
    dimensions[0] = (uint32_t)HCUBE_WHY_FIRST(answers[x]);
    dimensions[1] = (uint32_t)HCUBE_WHY_SECOND(answers[x]);
    dimensions[2] = (uint32_t)HCUBE_WHY_THIRD(answers[x]);
    return HCUBE_WHY_CAUSE(answers[x]) == HCUBE_CAUSE_FAULTY ? 2 : rule;
}

/* Whether the same is to be said of two nodes that a cause names. */
static int alike(uint32_t x, uint32_t y)
{
    if (is_unsafe(x) && is_unsafe(y))
        return round_of(x) == round_of(y);
    return strcmp(label_text(x), label_text(y)) == 0;
}

/* Of those that stand together and are alike it is said once. */
static void say_named(uint32_t x, uint32_t count, const uint32_t *dimensions)
{
    for (uint32_t from = 0, to; from < count; from = to) {
        uint32_t y = x ^ 1u << dimensions[from];
        for (to = from + 1; to < count; to++)
            if (!alike(y, x ^ 1u << dimensions[to]))
                break;
        for (uint32_t i = from; i < to; i++)
            printf("%s %u (dimension %u)",
                   i == 0 ? "" : i == from || i + 1 < to ? "," : " and",
                   x ^ 1u << dimensions[i], dimensions[i]);
        if (is_unsafe(y))
            printf(" %s marked in round %u", to - from == 1 ? "was" : "were",
                   round_of(y));
        else
            printf(" %s %s", to - from == 1 ? "is" : "are", label_text(y));
    }
}

static void say_cause(uint32_t x)
{
    uint32_t dimensions[3], count = cause_of(x, dimensions);
    int out = HCUBE_WHY_CAUSE(answers[x]) == HCUBE_CAUSE_FAULTY;
    printf(", marked in round %u for %s neighbours%s:", round_of(x),
           count == 2 ? "two" : "three", out ? " out of work" : "");
    say_named(x, count, dimensions);
}

static void say_counts(uint32_t x)
{
    uint32_t out = (uint32_t)HCUBE_WHY_FIRST(answers[x]);
    uint32_t not_safe = (uint32_t)HCUBE_WHY_SECOND(answers[x]);
    printf(": %u of its %u neighbours %s not safe", not_safe, n,
           not_safe == 1 ? "is" : "are");
    printf(", and %u of those %s out of work", out, out == 1 ? "is" : "are");
}

/* The node first, then those that its cause names, then those of theirs. */
static void say_chain(uint32_t x)
{
    find(x);
    for (uint32_t next = 0; next < found_count; next++) {
        uint32_t dimensions[3], count;
        x = found[next];
        count = is_unsafe(x) ? cause_of(x, dimensions) : 0;
        for (uint32_t i = 0; i < count; i++)
            find(x ^ 1u << dimensions[i]);
        printf("%u is %s", x, label_text(x));
        if (is_unsafe(x))
            say_cause(x);
        else if (HCUBE_KIND(answers[x]) == HCUBE_SAFE)
            say_counts(x);
        printf("\n");
    }
}

/* ---- a frame */

/* What is decided at c for a frame to d that has come so many hops. */
static void say_decision(uint32_t c, uint32_t d, uint32_t hops)
{
    uint32_t answer =
        hcube_why_hop(n, JOB, c, d, labels, HCUBE_LABEL_BYTES(n));
    uint32_t i = HCUBE_WHY_DIMENSION(answer), scan = HCUBE_WHY_SCAN(answer);
    int delivered = HCUBE_KIND(answer) == HCUBE_DELIVER;
    expect_accepted("question", answer);
    if (HCUBE_KIND(answer) == HCUBE_HOP)
        printf("%u to %u across dimension %u: scan %u, %s\n", c, c ^ 1u << i, i,
               scan, hcube_scan_text(scan));
    else
        printf("%s at %u after %u hop%s%s\n",
               delivered ? "delivered" : "halted", c, hops,
               hops == 1 ? "" : "s",
               delivered ? "" : ": no scan takes any dimension");
}

/* The walk is asked first: by hops alone a frame to a faulty node might go
 * round for ever. A walk has n + 4 hops at most. */
static void say_frame(uint32_t s, uint32_t d)
{
    uint8_t row[HCUBE_ROW_BYTES];
    uint32_t walked;
    find(s); /* for the labels */
    walked = hcube_walk(n, JOB, s, d, labels, HCUBE_LABEL_BYTES(n), row,
                        sizeof row);
    expect_accepted("question", walked);
    for (uint32_t place = 0; place <= HCUBE_VALUE(walked); place++)
        say_decision(hcube_row_node(row, place), d, place);
}

/* ---- a repair */

static uint16_t masks[HCUBE_NODES_MAX], row[HCUBE_NODES_MAX];

static void put_mask(const char *word)
{
    char *end;
    unsigned long w = strtoul(word, &end, 10);
    if (w >= HCUBE_NODES(n)) /* it has no mask */
        expect_accepted("masks", (uint64_t)HCUBE_BAD_NODE << 24);
    while (*end)
        masks[w] |= (uint16_t)(1u << strtoul(end + 1, &end, 10));
}

/* Where w and k are neighbours, their numbers differ in the bit by which w would
 * name k. */
static int names(uint32_t w, uint32_t k)
{
    uint32_t apart = w ^ k;
    return (apart & (apart - 1)) == 0 && masks[w] & apart && !is_faulty(w);
}

static void say_namers(uint32_t k)
{
    uint32_t namers[HCUBE_DIMENSION_MAX], count = 1;
    namers[0] = row[k] - 1u;
    for (uint32_t w = row[k]; w < HCUBE_NODES(n); w++)
        if (names(w, k))
            namers[count++] = w;
    printf("node %u: named by", k);
    for (uint32_t i = 0; i < count; i++)
        printf("%s %u", i == 0 ? "" : i + 1 < count ? "," : " and", namers[i]);
    printf("\n");
}

static void say_repair(int count, char **words)
{
    uint8_t result[HCUBE_FAULT_BYTES_MAX];
    size_t bytes = HCUBE_FAULT_BYTES(n);
    int some = 0;
    while (count-- > 0)
        put_mask(*words++);
    expect_accepted("masks",
                    hcube_repair(n, faults, bytes, masks, HCUBE_NODES(n), result,
                                 bytes, row, HCUBE_NODES(n)));
    for (uint32_t k = 0; k < HCUBE_NODES(n); k++)
        if (row[k] != 0) {
            say_namers(k);
            some = 1;
        }
    if (!some)
        printf("no node is added\n");
}

int main(int argc, char **argv)
{
    int masked = argc > 5 && strchr(argv[5], ':');
    if (argc != 6 && argc != 7 && !masked) {
        fprintf(stderr, "why: five or six words are wanted, or masks\n");
        return 2;
    }
    read_notice(argv[1]);
    rule = (uint32_t)strtoul(argv[2], NULL, 10);
    put_nodes("draining nodes", argv[3], draining);
    put_nodes("closed nodes", argv[4], closed);
    if (masked)
        say_repair(argc - 5, argv + 5);
    else if (argc == 6)
        say_chain((uint32_t)strtoul(argv[5], NULL, 10));
    else
        say_frame((uint32_t)strtoul(argv[5], NULL, 10),
                  (uint32_t)strtoul(argv[6], NULL, 10));
    if (fflush(stdout) == 0 && !ferror(stdout))
        return 0;
    perror("why: the answer could not be written");
    return 2;
}
