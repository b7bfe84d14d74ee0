/*
 * worked_notice.c: worked numbers (RULES, Numbers on both sides; The listing program)
 * of notices that are read and of those that are written, each as literal bytes.
 */
#include <string.h>

#include "cases.h"
#include "check.h"
#include "groups.h"

/* 200 is C8 01, as the only faulty node of n = 8. */
static void groups(void)
{
    static const uint8_t good[] = {8, 1, 0xc8, 1};
    static const uint8_t zero[] = {0x81, 0}, high[] = {0x81, 0x81};
    uint8_t faults[32];
    memset(faults, 0xee, sizeof faults);
    expect(check_notice(good, 4, faults, 32) == 0x8000100000004u,
           "C8 01 is 200");
    expect(faults[25] == 1, "node 200 is faulty");
    expect(check_notice(zero, 2, faults, 32) == NOTICE_REFUSED(10, 0), "81 00");
    expect(check_notice(high, 2, faults, 32) == NOTICE_REFUSED(10, 0), "81 81");
    expect(check_notice(zero, 1, faults, 32) == NOTICE_REFUSED(9, 0), "81");
}

/* ---- written ones */

#define NODES(...)                                                             \
    .nodes = {__VA_ARGS__}, .count = sizeof(uint32_t[]){__VA_ARGS__} / 4
#define BYTES(text) .bytes = text, .len = sizeof text - 1

/* The faulty nodes, and the notice. */
static const struct row {
    uint32_t n, nodes[4];
    unsigned count;
    const char *bytes;
    size_t len;
} rows[] = {
    {.n = 4, NODES(2, 4, 8, 15), BYTES("\x04\x04\x02\x01\x03\x06")},
    {.n = 4, BYTES("\x04\x00")},
    {.n = 4, NODES(0), BYTES("\x04\x01\x00")},
    {.n = 4, NODES(15), BYTES("\x04\x01\x0f")},
    {.n = 1, BYTES("\x01\x00")},
    {.n = 1, NODES(0), BYTES("\x01\x01\x00")},
    {.n = 1, NODES(1), BYTES("\x01\x01\x01")},
    {.n = 1, NODES(0, 1), BYTES("\x01\x02\x00\x00")},
    {.n = 2, NODES(1, 3), BYTES("\x02\x02\x01\x01")},
    {.n = 3, NODES(0, 7), BYTES("\x03\x02\x00\x06")},
    {.n = 7, NODES(127), BYTES("\x07\x01\x7f")},
    {.n = 8, NODES(200), BYTES("\x08\x01\xc8\x01")},
    {.n = 8, NODES(127), BYTES("\x08\x01\x7f")},
    {.n = 8, NODES(128), BYTES("\x08\x01\x80\x01")},
    {.n = 8, NODES(255), BYTES("\x08\x01\xff\x01")},
    {.n = 8, NODES(0, 127), BYTES("\x08\x02\x00\x7e")},
    {.n = 8, NODES(0, 128), BYTES("\x08\x02\x00\x7f")},
    {.n = 8, NODES(0, 129), BYTES("\x08\x02\x00\x80\x01")},
    {.n = 12, BYTES("\x0c\x00")},
    {.n = 12, NODES(4095), BYTES("\x0c\x01\xff\x1f")},
    {.n = 12, NODES(0, 4095), BYTES("\x0c\x02\x00\xfe\x1f")},
    {.n = 12, NODES(100, 300, 4000),
     BYTES("\x0c\x03\x64\xc7\x01\xf3\x1c")},
};

static uint8_t out[HCUBE_NOTICE_BYTES_MAX + 1], want[sizeof out];

/* Into a buffer of this length; `out` is compared with what is wanted. */
static void writes(struct write_question asked, size_t room, uint32_t answer)
{
    uint32_t got;
    memset(out, 0xee, sizeof out);
    asked.out_len = room;
    got = check_write(asked);
    expect(got == answer, "n = %u, room %u: %08x", asked.n, (unsigned)room, got);
    expect(!memcmp(out, want, sizeof out), "n = %u, room %u: other bytes",
           asked.n, (unsigned)room);
}

/* Without a byte of room, with one too few, with no more than it takes, with more. */
static void is_written(uint32_t n, const uint8_t *faults, const uint8_t *notice,
                       size_t len)
{
    struct write_question asked = fit_write(n, faults, out);
    memset(want, 0xee, sizeof want);
    writes(asked, 0, REFUSED(13));
    writes(asked, len - 1, REFUSED(13));
    memcpy(want, notice, len);
    writes(asked, len, (uint32_t)len);
    writes(asked, len + 1, (uint32_t)len);
    writes(asked, sizeof out, (uint32_t)len);
}

static void written_rows(void)
{
    for (size_t k = 0; k < COUNT(rows); k++) {
        uint8_t faults[HCUBE_FAULT_BYTES_MAX] = {0};
        for (unsigned i = 0; i < rows[k].count; i++)
            put_node(faults, rows[k].nodes[i]);
        is_written(rows[k].n, faults, (const uint8_t *)rows[k].bytes,
                   rows[k].len);
    }
}

/* Every node, and every node but the first: in n = 7 the count is 128 and 127, and
 * in n = 12 it is 4096. */
static void written_full(void)
{
    uint8_t faults[HCUBE_FAULT_BYTES_MAX], notice[HCUBE_NOTICE_BYTES_MAX];
    memset(faults, 0xff, sizeof faults);
    memset(notice, 0, sizeof notice);
    memcpy(notice, "\x07\x80\x01", 3);
    is_written(7, faults, notice, 131);
    memcpy(notice, "\x0c\x80\x20", 3);
    is_written(12, faults, notice, 4099);
    faults[0] = 0xfe;
    memcpy(notice, "\x07\x7f\x01", 3);
    is_written(7, faults, notice, 129);
}

void check_worked_notices(void)
{
    begin_group("worked notices");
    groups();
    written_rows();
    written_full();
    end_group();
}
