/* questions.c: what may be asked of the library, and asking it. */
#include "questions.h"

#include <string.h>

#include "asked.h"
#include "cases.h"
#include "lent.h"

const struct question questions[QUESTIONS] = {
    [LABEL] = {"label", {1, 18, 19, 2, 3}},
    [HOP] = {"hop", {1, 19, 2, 5, 4, 6}},
    [WALK] = {"walk", {1, 19, 2, 5, 4, 6, 7, 8}},
    [WHY_NODE] = {"why a label", {1, 18, 19, 2, 3, 5}},
    [WHY_HOP] = {"why a hop", {1, 19, 2, 5, 4, 6}},
    [NET_HOP] = {"hop by networks", {1, 15, 19, 2, 5, 4, 6, 16}},
    [NET_WALK] = {"walk by networks", {1, 15, 19, 2, 13, 5, 4, 6, 7, 16}},
    [NOTICE] = {"notice", {9, 10, 1, 2, 11, 12}},
    [DIMENSION] = {"dimension", {9, 10, 1}},
    [WRITE] = {"write", {1, 2, 3, 13}},
    [LIST] = {"list", {1, 2, 14, 12}},
    [WRITE_LIST] = {"write a list", {1, 2, 3, 13}},
    [REPAIR] = {"repair", {1, 2, 3, 17}},
};

static const uint8_t none[MOST_LENT];
static uint8_t buffers[WALK + 1][MOST_LENT]; /* one for each kind of question */

/* From a random place in a row of which the first half is any bytes and the
 * second half labels. */
void put_anything(uint8_t *bytes, size_t len)
{
    static uint8_t row[1u << 16];
    if (row[0] == 0) {
        random_bytes(row, sizeof row / 2);
        random_labels(15, LAST_LABEL, row + sizeof row / 2);
        row[0] = 255; /* it is made */
    }
    memcpy(bytes, row + random_below((uint32_t)(sizeof row - len)), len);
}

uint32_t any_dimension(void)
{
    static const uint32_t bad[] = {0, 13, 16, 255, 256, 257, 260, 268,
                                   65536 + 4, 0x80000001u, 0xffffffffu};
    return random_below(12) ? 1 + random_below(12)
                            : bad[random_below(COUNT(bad))];
}

static void put_job(uint32_t n, uint32_t job, const uint8_t *half,
                    uint8_t *buffer)
{
    put_anything(buffer, HCUBE_LABEL_BYTES(n));
    if (job != 1)
        memcpy(buffer, half, HCUBE_NODES(n));
    if (job != 0)
        memcpy(buffer + HCUBE_NODES(n), half, HCUBE_NODES(n));
}

const uint8_t *buffer_of(uint32_t n, uint32_t job, const uint8_t *half)
{
    static uint8_t buffer[MOST_LENT];
    put_job(n, job, half, buffer);
    return buffer;
}

/* Puts the half into the buffer of this kind as that of either job, in no short
 * row; the job. */
static uint32_t put_half(unsigned question, uint32_t n, const uint8_t *half)
{
    static uint32_t turn;
    uint32_t job = ++turn * 2654435769u >> 31;
    put_job(n, job, half, buffers[question]);
    return job;
}

struct label_question fit_label(uint32_t n, const uint8_t *faults,
                                const uint8_t *half)
{
    struct label_question asked = {.n = n,
                                   .rule = HCUBE_RULE_CHIU_WU,
                                   .job = put_half(LABEL, n, half),
                                   .faults = faults,
                                   .faults_len = ref_fault_bytes(n),
                                   .draining = none,
                                   .draining_len = ref_fault_bytes(n),
                                   .closed = none,
                                   .closed_len = ref_fault_bytes(n),
                                   .labels = buffers[LABEL],
                                   .labels_len = ref_label_bytes(n)};
    return asked;
}

struct hop_question fit_hop(uint32_t n, uint32_t c, uint32_t d,
                            const uint8_t *half)
{
    struct hop_question asked = {.n = n,
                                 .job = put_half(HOP, n, half),
                                 .c = c,
                                 .d = d,
                                 .labels = buffers[HOP],
                                 .labels_len = ref_label_bytes(n)};
    return asked;
}

struct walk_question fit_walk(uint32_t n, uint32_t s, uint32_t d,
                              const uint8_t *half, uint8_t *row)
{
    struct walk_question asked = {.n = n,
                                  .job = put_half(WALK, n, half),
                                  .s = s,
                                  .d = d,
                                  .labels = buffers[WALK],
                                  .labels_len = ref_label_bytes(n),
                                  .row = row,
                                  .row_len = ROW_BYTES};
    return asked;
}

struct write_question fit_write(uint32_t n, const uint8_t *faults, uint8_t *out)
{
    struct write_question asked = {.n = n,
                                   .faults = faults,
                                   .faults_len = ref_fault_bytes(n),
                                   .out = out,
                                   .out_len = HCUBE_NOTICE_BYTES_MAX};
    return asked;
}

struct write_question fit_write_list(uint32_t n, const uint8_t *faults,
                                     uint8_t *out)
{
    struct write_question asked = fit_write(n, faults, out);
    asked.out_len = HCUBE_LIST_BYTES_MAX;
    return asked;
}

struct list_question fit_list(uint32_t n, const uint8_t *text, size_t text_len,
                              uint8_t *faults)
{
    struct list_question asked = {.n = n,
                                  .text = text,
                                  .text_len = text_len,
                                  .faults = faults,
                                  .faults_len = ref_fault_bytes(n)};
    return asked;
}

struct repair_question fit_repair(uint32_t n, const uint8_t *faults,
                                  const uint16_t *masks, uint8_t *result,
                                  uint16_t *row)
{
    struct repair_question asked = {.n = n,
                                    .faults = faults,
                                    .faults_len = ref_fault_bytes(n),
                                    .masks = masks,
                                    .masks_len = HCUBE_NODES(n),
                                    .result = result,
                                    .result_len = ref_fault_bytes(n),
                                    .row = row,
                                    .row_len = HCUBE_NODES(n)};
    return asked;
}

void keep_half(struct label_question asked, uint8_t *half)
{
    memcpy(half, asked.labels + HCUBE_HALF(asked.n, asked.job),
           HCUBE_NODES(asked.n));
}

uint32_t ask_label(struct label_question asked)
{
    keep_label(asked);
    return hcube_label(asked.n, asked.rule, asked.job, asked.faults,
                       asked.faults_len, asked.draining, asked.draining_len,
                       asked.closed, asked.closed_len, asked.labels,
                       asked.labels_len);
}

uint32_t ask_hop(struct hop_question asked)
{
    keep_hop(asked);
    return hcube_hop(asked.n, asked.job, asked.c, asked.d, asked.labels,
                     asked.labels_len);
}

uint32_t ask_walk(struct walk_question asked)
{
    keep_walk(asked);
    return hcube_walk(asked.n, asked.job, asked.s, asked.d, asked.labels,
                      asked.labels_len, asked.row, asked.row_len);
}

uint64_t ask_why_node(struct label_question asked, uint32_t x)
{
    keep_why_node(asked, x);
    return hcube_why_node(asked.n, asked.rule, asked.job, x, asked.faults,
                          asked.faults_len, asked.draining, asked.draining_len,
                          asked.closed, asked.closed_len, asked.labels,
                          asked.labels_len);
}

uint32_t ask_why_hop(struct hop_question asked)
{
    keep_why_hop(asked);
    return hcube_why_hop(asked.n, asked.job, asked.c, asked.d, asked.labels,
                         asked.labels_len);
}

uint32_t ask_dimension(const uint8_t *bytes, size_t len)
{
    keep_dimension(bytes, len);
    return hcube_notice_dimension(bytes, len);
}

uint64_t ask_notice(const uint8_t *bytes, size_t len, uint8_t *faults,
                    size_t faults_len)
{
    keep_notice(bytes, len, faults, faults_len);
    return hcube_read_notice(bytes, len, faults, faults_len);
}

uint32_t ask_write(struct write_question asked)
{
    keep_write(asked);
    return hcube_write_notice(asked.n, asked.faults, asked.faults_len, asked.out,
                              asked.out_len);
}

uint32_t ask_list(struct list_question asked)
{
    keep_list(asked);
    return hcube_read_list(asked.n, asked.text, asked.text_len, asked.faults,
                           asked.faults_len);
}

uint32_t ask_write_list(struct write_question asked)
{
    keep_write_list(asked);
    return hcube_write_list(asked.n, asked.faults, asked.faults_len, asked.out,
                            asked.out_len);
}

uint32_t ask_repair(struct repair_question asked)
{
    keep_repair(asked);
    return hcube_repair(asked.n, asked.faults, asked.faults_len, asked.masks,
                        asked.masks_len, asked.result, asked.result_len,
                        asked.row, asked.row_len);
}

uint32_t row_place(const uint8_t *row, uint32_t k)
{
    return row[2 * k] + 256u * row[2 * k + 1];
}
