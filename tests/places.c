/*
 * places.c: for each refusal of a notice the place that it is given with, and
 * the parts of the answer that are taken out by the header.
 */
#include <string.h>

#include "cases.h"
#include "check.h"
#include "groups.h"
#include "lent.h"

static uint8_t bytes[MOST_LENT];

/* ---- each refusal, at each number that it can be about */

#define BYTES(text) .bytes = text, .len = sizeof text - 1

static const struct row {
    unsigned refusal;
    size_t place;
    size_t table; /* length of the fault table: 2 fits n = 4, 512 n = 12 */
    const char *bytes;
    size_t len;
} rows[] = {
    /* the dimension */
    {.refusal = 9, .place = 0, .table = 2, BYTES("")},
    {.refusal = 9, .place = 0, .table = 2, BYTES("\x84")},
    {.refusal = 10, .place = 0, .table = 2, BYTES("\x84\x00")},
    {.refusal = 10, .place = 0, .table = 2, BYTES("\x84\x81\x01")},
    {.refusal = 1, .place = 0, .table = 2, BYTES("\x00")},
    {.refusal = 1, .place = 0, .table = 2, BYTES("\x0d\x01\x01")},
    {.refusal = 1, .place = 0, .table = 2, BYTES("\x84\x01\x01\x01")},
    {.refusal = 2, .place = 0, .table = 1, BYTES("\x04")},
    {.refusal = 2, .place = 0, .table = 3, BYTES("\x04\x01\x01")},
    {.refusal = 2, .place = 0, .table = 511, BYTES("\x0c\x80\x01\x01")},
    /* the count */
    {.refusal = 9, .place = 1, .table = 2, BYTES("\x04")},
    {.refusal = 9, .place = 1, .table = 2, BYTES("\x04\x81")},
    {.refusal = 10, .place = 1, .table = 2, BYTES("\x04\x81\x00")},
    {.refusal = 10, .place = 1, .table = 2, BYTES("\x04\x81\x81\x01")},
    {.refusal = 11, .place = 1, .table = 2, BYTES("\x04\x11\x01")},
    {.refusal = 11, .place = 1, .table = 512, BYTES("\x0c\x81\x20\x01")},
    /* the first address, behind a count of one byte and of two */
    {.refusal = 9, .place = 2, .table = 2, BYTES("\x04\x02")},
    {.refusal = 9, .place = 2, .table = 2, BYTES("\x04\x02\x81")},
    {.refusal = 10, .place = 2, .table = 2, BYTES("\x04\x02\x81\x00")},
    {.refusal = 10, .place = 2, .table = 2, BYTES("\x04\x02\x81\x81\x01")},
    {.refusal = 12, .place = 2, .table = 2, BYTES("\x04\x02\x10\x01")},
    {.refusal = 12, .place = 2, .table = 2, BYTES("\x04\x02\x90\x01\x01")},
    {.refusal = 9, .place = 3, .table = 512, BYTES("\x0c\x80\x01")},
    {.refusal = 9, .place = 3, .table = 512, BYTES("\x0c\x80\x01\x81")},
    {.refusal = 10, .place = 3, .table = 512, BYTES("\x0c\x80\x01\x81\x00")},
    {.refusal = 10, .place = 3, .table = 512, BYTES("\x0c\x80\x01\x81\x80")},
    {.refusal = 12, .place = 3, .table = 512, BYTES("\x0c\x80\x01\x80\x20")},
    /* a later one, behind numbers of one byte and of two */
    {.refusal = 9, .place = 4, .table = 2, BYTES("\x04\x03\x01\x01")},
    {.refusal = 9, .place = 4, .table = 2, BYTES("\x04\x03\x01\x01\x81")},
    {.refusal = 10, .place = 4, .table = 2, BYTES("\x04\x03\x01\x01\x81\x00")},
    {.refusal = 10, .place = 4, .table = 2, BYTES("\x04\x03\x01\x01\x81\xff")},
    {.refusal = 12, .place = 4, .table = 2, BYTES("\x04\x03\x01\x01\x0c")},
    {.refusal = 12, .place = 3, .table = 2, BYTES("\x04\x03\x0f\x00\x00")},
    {.refusal = 9, .place = 6, .table = 512, BYTES("\x0c\x03\x80\x01\x81\x01")},
    {.refusal = 9, .place = 6, .table = 512,
     BYTES("\x0c\x03\x80\x01\x81\x01\x81")},
    {.refusal = 10, .place = 6, .table = 512,
     BYTES("\x0c\x03\x80\x01\x81\x01\x81\x00")},
    {.refusal = 12, .place = 6, .table = 512,
     BYTES("\x0c\x03\x80\x01\x81\x01\xff\x7f")},
};

static uint64_t answer_of(const struct row *row)
{
    memcpy(bytes, row->bytes, row->len);
    return check_notice_alone(bytes, row->len, row->table);
}

static int has_row(unsigned refusal)
{
    for (size_t k = 0; k < COUNT(rows); k++)
        if (rows[k].refusal == refusal)
            return 1;
    return 0;
}

void check_places(void)
{
    begin_group("place of each refusal of a notice");
    for (size_t k = 0; k < COUNT(rows); k++) {
        uint64_t answer = answer_of(&rows[k]);
        expect(answer == NOTICE_REFUSED(rows[k].refusal, rows[k].place),
               "row %u: %016llx, not %u at %u", (unsigned)k,
               (unsigned long long)answer, rows[k].refusal,
               (unsigned)rows[k].place);
    }
    for (const unsigned *a = questions[NOTICE].refusals; *a; a++)
        expect(has_row(*a), "%u has no row", *a);
    end_group();
}

/* ---- a caller who keeps 32 bits of the answer sees the same refusal */

/* What the header takes out of the whole answer and out of 32 bits of it. */
static void parts_are(uint64_t answer, unsigned refusal, size_t value)
{
    uint32_t cut = (uint32_t)answer;
    expect(HCUBE_REFUSAL(answer) == refusal && HCUBE_KIND(answer) == 0 &&
               HCUBE_VALUE(answer) == value,
           "%016llx: not %u with %u", (unsigned long long)answer, refusal,
           (unsigned)value);
    expect(HCUBE_REFUSAL(cut) == refusal && HCUBE_KIND(cut) == 0 &&
               HCUBE_VALUE(cut) == value,
           "%08x, cut to 32 bits: not %u with %u", cut, refusal,
           (unsigned)value);
}

void check_cut_answers(void)
{
    begin_group("notices' answers cut to 32 bits");
    for (size_t k = 0; k < COUNT(rows); k++) {
        uint64_t answer = answer_of(&rows[k]);
        parts_are(answer, rows[k].refusal, rows[k].place);
        expect(!HCUBE_NOTICE_DIMENSION(answer) && !HCUBE_NOTICE_COUNT(answer),
               "row %u: refused with dimension or count", (unsigned)k);
    }
    for (uint32_t n = 1; n <= 12; n++) {
        size_t at = put_number(n, bytes);
        uint64_t answer;
        at += put_number(1, bytes + at);
        at += put_number((1u << n) - 1, bytes + at);
        answer = check_notice_alone(bytes, at, HCUBE_FAULT_BYTES(n));
        parts_are(answer, HCUBE_ACCEPTED, at);
        expect(HCUBE_NOTICE_DIMENSION(answer) == n &&
                   HCUBE_NOTICE_COUNT(answer) == 1,
               "n = %u: %016llx", n, (unsigned long long)answer);
    }
    end_group();
}
