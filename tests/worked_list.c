/*
 * worked_list.c: worked lists (RULES, List text), each as literal text: those that
 * are read, those that are refused, those that are written, and the longest.
 */
#include <string.h>

#include "cases.h"
#include "check.h"
#include "groups.h"

#define TEXT(words) .text = words, .len = sizeof words - 1

/* ---- read: the nodes are those whose bits are set, of n up to 5 */

static const struct {
    uint32_t n, bits;
    const char *text;
    size_t len;
} read_rows[] = {
    {.n = 4, .bits = 0x010f, TEXT("0-3,8")},
    {.n = 4, .bits = 0x010f, TEXT("8,0-3")},
    {.n = 4, .bits = 0x010f, TEXT("0,1,2,3,8")},
    {.n = 4, .bits = 0x010f, TEXT("3,8,2,0,1")},
    {.n = 4, .bits = 0x010f, TEXT("0-2,1-3,8-8")},
    {.n = 4, .bits = 0x010f, TEXT("8,8,0-3,8,0-3,1")},
    {.n = 4, .bits = 0x8114, TEXT("2,4,8,15")},
    {.n = 4, .bits = 0x0000, TEXT("")},
    {.n = 4, .bits = 0x0001, TEXT("0")},
    {.n = 4, .bits = 0x0001, TEXT("0-0")},
    {.n = 4, .bits = 0x0020, TEXT("5-5")},
    {.n = 4, .bits = 0x8000, TEXT("15")},
    {.n = 4, .bits = 0x8000, TEXT("15-15")},
    {.n = 4, .bits = 0xffff, TEXT("0-15")},
    {.n = 4, .bits = 0xffff, TEXT("8-15,0-7")},
    {.n = 4, .bits = 0xffff, TEXT("0-9,5-15")},
    {.n = 4, .bits = 0x0600, TEXT("9-10")},
    {.n = 1, .bits = 0, TEXT("")},
    {.n = 1, .bits = 3, TEXT("0-1")},
    {.n = 1, .bits = 3, TEXT("1,0")},
    {.n = 1, .bits = 2, TEXT("1")},
    {.n = 2, .bits = 0xb, TEXT("3,0-1")},
    {.n = 3, .bits = 0x81, TEXT("7,0")},
    {.n = 5, .bits = 0x80000001, TEXT("31,0")},
    {.n = 5, .bits = 0xffffffff, TEXT("0-31")},
};

static void read_lists(void)
{
    for (size_t k = 0; k < COUNT(read_rows); k++) {
        uint8_t faults[4] = {0xee, 0xee, 0xee, 0xee};
        const uint8_t *text = (const uint8_t *)read_rows[k].text;
        uint32_t n = read_rows[k].n, bits = read_rows[k].bits;
        expect(check_list(fit_list(n, text, read_rows[k].len, faults)) == 0,
               "%s", read_rows[k].text);
        for (size_t at = 0; at < HCUBE_FAULT_BYTES(n); at++)
            expect(faults[at] == (uint8_t)(bits >> 8 * at), "%s: byte %u",
                   read_rows[k].text, (unsigned)at);
    }
}

/* ---- refused, of n = 4 */

static const struct {
    unsigned refusal;
    const char *text;
    size_t len;
} refused_rows[] = {
    {14, TEXT(",")},      {14, TEXT("-")},        {14, TEXT(" ")},
    {14, TEXT("0,")},     {14, TEXT(",0")},       {14, TEXT("0,,1")},
    {14, TEXT("00")},     {14, TEXT("01")},       {14, TEXT("000")},
    {14, TEXT("0-01")},   {14, TEXT("00-1")},     {14, TEXT("1,02")},
    {14, TEXT("1-")},     {14, TEXT("-1")},       {14, TEXT("0--1")},
    {14, TEXT("1-2-3")},  {14, TEXT("1-,2")},     {14, TEXT("1,-2")},
    {14, TEXT("3-2")},    {14, TEXT("10-9")},     {14, TEXT("1-0,0")},
    {14, TEXT("0,3-2")},  {14, TEXT("0\n")},      {14, TEXT("\n")},
    {14, TEXT("0\r\n")},  {14, TEXT("0\t")},      {14, TEXT(" 0")},
    {14, TEXT("0 ")},     {14, TEXT("0, 1")},     {14, TEXT("0 1")},
    {14, TEXT("0 -1")},   {14, TEXT("\0")},       {14, TEXT("0\0")},
    {14, TEXT("0-3,8\0")}, {14, TEXT("\0" "0")},  {14, TEXT("0\0,1")},
    {14, TEXT("0\xff")},  {14, TEXT("\xb0")},     {14, TEXT("1\xb0")},
    {14, TEXT("0\xac" "1")}, {14, TEXT("0\xad" "1")}, {14, TEXT("0.1")},
    {14, TEXT("0/1")},    {14, TEXT("1:")},       {14, TEXT("+1")},
    {14, TEXT("0;1")},    {14, TEXT("0x1")},      {14, TEXT("a")},
    {14, TEXT("all")},    {14, TEXT("N")},        {14, TEXT("0-N")},
    {14, TEXT("0-7:2/4")}, {14, TEXT("\"0\"")},   {14, TEXT("0-3,8,")},
    {14, TEXT("9999,0-")}, {14, TEXT("16,")},     {14, TEXT(",16")},
    {14, TEXT("16 ")},    {14, TEXT("17-16")},    {14, TEXT("016")},
    {14, TEXT("16,1-0")}, {14, TEXT("1-0,16")},   {14, TEXT("100-99")},
    {14, TEXT("99999999999999999999-1")},
    {14, TEXT("18446744073709551617-1")}, /* 2^64 + 1 */
    {14, TEXT("4294967297-1")},           /* 2^32 + 1 */
    {14, TEXT("65537-1")},
    {14, TEXT("257-1")},
    {14, TEXT("18446744073709551617-18446744073709551616")},
    {14, TEXT("99999999999999999999-99999999999999999998")},
    {14, TEXT("100000000000000000000-99999999999999999999")},
    {14, TEXT("4097-4096")},
    {14, TEXT("99999999999999999999,")},
    {12, TEXT("16")},     {12, TEXT("16-16")},    {12, TEXT("15-16")},
    {12, TEXT("0-16")},   {12, TEXT("0,16")},     {12, TEXT("16,0")},
    {12, TEXT("17-18")},  {12, TEXT("4095")},     {12, TEXT("4096")},
    {12, TEXT("4096-4097")}, {12, TEXT("0-4096")}, {12, TEXT("5000-5000")},
    {12, TEXT("256")},    {12, TEXT("65536")},    {12, TEXT("4294967296")},
    {12, TEXT("4294967297-4294967298")},
    {12, TEXT("18446744073709551616")},
    {12, TEXT("0-18446744073709551616")},
    {12, TEXT("0-18446744073709551615")},
    {12, TEXT("99999999999999999999")},
    {12, TEXT("99999999999999999999-99999999999999999999")},
    {12, TEXT("99999999999999999999-100000000000000000000")},
    {12, TEXT("340282366920938463463374607431768211456,1")},
};

static void refused_lists(void)
{
    for (size_t k = 0; k < COUNT(refused_rows); k++) {
        uint8_t faults[2] = {0xee, 0x77};
        const uint8_t *text = (const uint8_t *)refused_rows[k].text;
        uint32_t got =
            check_list(fit_list(4, text, refused_rows[k].len, faults));
        expect(got == REFUSED(refused_rows[k].refusal),
               "row %u: %08x, where %u is due", (unsigned)k, got,
               refused_rows[k].refusal);
        expect(faults[0] == 0xee && faults[1] == 0x77,
               "row %u: a byte changed", (unsigned)k);
    }
}

/* The last node of each cube, and the one behind it. */
static void last_nodes(void)
{
    static const char *const nodes[] = {"1",   "2",    "3",    "4",    "7",
                                        "8",   "15",   "16",   "31",   "32",
                                        "63",  "64",   "127",  "128",  "255",
                                        "256", "511",  "512",  "1023", "1024",
                                        "2047", "2048", "4095", "4096"};
    uint8_t faults[HCUBE_FAULT_BYTES_MAX];
    for (uint32_t n = 1; n <= 12; n++) {
        const uint8_t *last = (const uint8_t *)nodes[2 * n - 2];
        const uint8_t *beyond = (const uint8_t *)nodes[2 * n - 1];
        memset(faults, 0xee, sizeof faults);
        expect(check_list(fit_list(n, last, strlen(nodes[2 * n - 2]), faults)) ==
                   0, "the last node of n = %u", n);
        expect(in_table(faults, (1u << n) - 1) && !in_table(faults, 0),
               "the last node of n = %u", n);
        expect(check_list_alone(n, beyond, strlen(nodes[2 * n - 1])) ==
                   REFUSED(12), "a node behind the last of n = %u", n);
    }
}

/* ---- written */

static const struct {
    uint32_t n, nodes[8];
    unsigned count;
    const char *text;
} written_rows[] = {
    {4, {0, 1, 2, 3, 8}, 5, "0-3,8"},
    {4, {2, 4, 8, 15}, 4, "2,4,8,15"},
    {4, {0}, 0, ""},
    {4, {0}, 1, "0"},
    {4, {0, 1}, 2, "0-1"},
    {4, {14, 15}, 2, "14-15"},
    {4, {0, 2}, 2, "0,2"},
    {4, {7, 8, 9, 10}, 4, "7-10"},
    {1, {0, 1}, 2, "0-1"},
    {1, {1}, 1, "1"},
    {2, {0, 1, 3}, 3, "0-1,3"},
    {3, {0, 7}, 2, "0,7"},
    {7, {9, 10, 99, 100}, 4, "9-10,99-100"},
    {10, {999, 1000, 1023}, 3, "999-1000,1023"},
    {12, {4095}, 1, "4095"},
    {12, {0, 10, 100, 1000, 1001, 4094, 4095}, 7, "0,10,100,1000-1001,4094-4095"},
    {12, {1010, 1100, 2002, 3030}, 4, "1010,1100,2002,3030"},
};

static uint8_t out[HCUBE_LIST_BYTES_MAX + 1], want[sizeof out];

/* Into a buffer of this length; `out` is compared with what is wanted. */
static void writes(struct write_question asked, size_t room, uint32_t answer)
{
    uint32_t got;
    memset(out, 0xee, sizeof out);
    asked.out_len = room;
    got = check_write_list(asked);
    expect(got == answer, "n = %u, room %u: %08x", asked.n, (unsigned)room, got);
    expect(!memcmp(out, want, sizeof out), "n = %u, room %u: other bytes",
           asked.n, (unsigned)room);
}

/* With a byte too few, with no more than it takes, with more. */
static void is_written(uint32_t n, const uint8_t *faults, const void *text,
                       size_t len)
{
    struct write_question asked = fit_write_list(n, faults, out);
    memset(want, 0xee, sizeof want);
    if (len > 0) {
        writes(asked, 0, REFUSED(13));
        writes(asked, len - 1, REFUSED(13));
    }
    memcpy(want, text, len);
    writes(asked, len, (uint32_t)len);
    writes(asked, len + 1, (uint32_t)len);
    writes(asked, sizeof out, (uint32_t)len);
}

static void written_lists(void)
{
    for (size_t k = 0; k < COUNT(written_rows); k++) {
        uint8_t faults[HCUBE_FAULT_BYTES_MAX] = {0};
        for (unsigned i = 0; i < written_rows[k].count; i++)
            put_node(faults, written_rows[k].nodes[i]);
        is_written(written_rows[k].n, faults, written_rows[k].text,
                   strlen(written_rows[k].text));
    }
}

/* All nodes, and the longest text: there is none longer for n up to 4, which
 * list_written.c tries. */
static void longest_lists(void)
{
    static const struct {
        const char *all;
        size_t longest;
    } rows[] = {{"0-1", 3},    {"0-3", 5},     {"0-7", 11},    {"0-15", 25},
                {"0-31", 58},  {"0-63", 121},  {"0-127", 269}, {"0-255", 609},
                {"0-511", 1293}, {"0-1023", 2673}, {"0-2047", 6088},
                {"0-4095", HCUBE_LIST_BYTES_MAX}};
    static uint8_t faults[HCUBE_FAULT_BYTES_MAX], text[HCUBE_LIST_BYTES_MAX];
    for (uint32_t n = 1; n <= 12; n++) {
        random_faults(n, 1000, faults);
        is_written(n, faults, rows[n - 1].all, strlen(rows[n - 1].all));
        worst_list(n, faults);
        expect(put_list(n, faults, text) == rows[n - 1].longest, "n = %u", n);
        is_written(n, faults, text, rows[n - 1].longest);
    }
}

void check_worked_lists(void)
{
    begin_group("worked lists");
    read_lists();
    refused_lists();
    last_nodes();
    written_lists();
    longest_lists();
    end_group();
}
