/*
 * listing_refused.c: inputs for the listing program in which a number is
 * refused. The place that is due is a literal, or is counted when the number is
 * put there; no reader is asked for it.
 */
#include "listing_cases.h"

#include <string.h>

/* ---- in the notice */

#define NOTICE(refusal, place, text)                                           \
    (START(text), make_refused("notice", "notice", refusal, place))

static void refused_notices(void)
{
    START("");
    make_refused("empty", "notice", 9, 0);
    NOTICE(1, 0, "\x00");
    NOTICE(1, 0, "\x0d\x00");
    NOTICE(9, 0, "\x84");
    NOTICE(10, 0, "\x84\x00");
    NOTICE(1, 0, "\x84\x02\x00");
    NOTICE(10, 0, "\x81\x81");
    NOTICE(10, 0, "\x8d\x80");
    NOTICE(9, 1, "\x04");
    NOTICE(9, 1, "\x04\x91");
    NOTICE(10, 1, "\x04\x91\x00");
    NOTICE(11, 1, "\x04\x11");
    NOTICE(11, 1, "\x04\xff\x7f\x00");
    NOTICE(9, 2, "\x04\x01");
    NOTICE(9, 2, "\x04\x01\x90");
    NOTICE(10, 2, "\x04\x02\x81\x00");
    NOTICE(12, 2, "\x04\x01\x10\x00\x01");
    NOTICE(12, 3, "\x04\x02\x0f\x00\x00\x01");
    NOTICE(12, 3, "\x04\x02\x01\xff\x7f");
    NOTICE(10, 3, "\x04\x02\x01\x81\x80\x01");
    NOTICE(9, 3, "\x0c\x80\x20");
    NOTICE(11, 1, "\x0c\x81\x20\x00");
    NOTICE(10, 3, "\x0c\x80\x01\x81\x00");
    NOTICE(12, 3, "\x0c\x80\x01\x80\x20");
    NOTICE(12, 5, "\x0c\x80\x01\x80\x01\xff\x7f\x00");
}

/* Where the number begins to which this byte of the notice belongs. */
static size_t begins(size_t at)
{
    size_t k = 0;
    while (places[k + 1] <= at)
        k++;
    return places[k];
}

/* Random notices: cut anywhere, or with another number behind the count. */
static void damaged_notices(void)
{
    for (unsigned k = 0; k < 12; k++) {
        start_notice(1 + k, 500);
        len = random_below((uint32_t)len);
        make_refused("cut-notice", "notice", 9, begins(len));
    }
    for (unsigned k = 0; k < 16; k++) {
        size_t place;
        start_notice(5 + k % 8, 300 + 40 * k);
        place = begins(places[2] + random_below((uint32_t)(len - places[2])));
        memcpy(bytes + place, k % 2 ? "\x81\x00" : "\xff\x7f", 2);
        len = len < place + 2 ? place + 2 : len;
        make_refused("bad-address", "notice", k % 2 ? 10 : 12, place);
    }
}

/* ---- in a pair */

#define INPUT(refusal, place, text)                                            \
    (START(text), make_refused("bad-pair", "input", refusal, place))

/* A bad source, and a bad destination behind a source of one byte or two. */
static void refused_pairs(void)
{
    INPUT(9, 2, "\x04\x00\x81");
    INPUT(10, 2, "\x04\x00\x81\x00\x01");
    INPUT(9, 3, "\x04\x00\x01");
    INPUT(9, 3, "\x04\x00\x01\x81");
    INPUT(10, 3, "\x04\x00\x01\x81\x00");
    INPUT(9, 4, "\x04\x00\x81\x01");
    INPUT(10, 4, "\x04\x00\x81\x01\x81\x81");
    INPUT(9, 6, "\x04\x04\x02\x01\x03\x06\x8d");
    INPUT(10, 6, "\x04\x04\x02\x01\x03\x06\x8d\x00\x06");
    INPUT(9, 7, "\x04\x04\x02\x01\x03\x06\x0d");
    INPUT(10, 9, "\x04\x04\x02\x01\x03\x06\x0d\x00\x06\x80\x80");
    INPUT(9, 9, "\x04\x04\x02\x01\x03\x06\x0d\x00\x06");
}

/* Behind a notice and pairs of random lengths, a number that is none: in turn
 * the source, the destination behind a small source and behind a great one. */
static void bad_pairs(void)
{
    static const struct {
        unsigned refusal;
        size_t len;
        const char *bytes;
    } bad[] = {{9, 1, "\x81"},
               {10, 2, "\x81\x00"},
               {10, 4, "\x80\xff\x00\x01"},
               {10, 3, "\xff\x80\x01"}};
    for (unsigned k = 0; k < 36; k++) {
        uint32_t n = 2 + k % 11;
        size_t place;
        start_notice(n, 20 * k);
        add_pairs(n, k / 2);
        if (k % 3)
            add_number(random_below(128) + (k % 3 == 2 ? 128 : 0));
        place = len;
        memcpy(bytes + len, bad[k % 4].bytes, bad[k % 4].len);
        len += bad[k % 4].len;
        make_refused("bad-pair", "input", bad[k % 4].refusal, place);
    }
}

/* At the end of the longest input: a cut source, and no destination. */
static void last_places(void)
{
    START("\x04\x01\x05");
    memset(bytes + len, 0, MOST_INPUT - len);
    len = MOST_INPUT;
    make_refused("last-place", "input", 9, MOST_INPUT);
    bytes[MOST_INPUT - 1] = 0x81;
    make_refused("last-place", "input", 9, MOST_INPUT - 1);
}

void refused_inputs(void)
{
    refused_notices();
    damaged_notices();
    refused_pairs();
    bad_pairs();
    last_places();
}
