/*
 * dimensions.c: the dimension of a notice alone, on all of 0 to 2 bytes and with
 * any bytes behind them. What is due is said here, not by the reference.
 */
#include <string.h>

#include "cases.h"
#include "check.h"
#include "groups.h"
#include "lent.h"

static uint8_t bytes[MOST_LENT];

/* By the first bytes, of which there are none, one, or two and more. */
static uint32_t due(size_t len)
{
    if (len == 0 || (len == 1 && bytes[0] >= 128))
        return REFUSED(9);
    if (bytes[0] >= 128 && (bytes[1] == 0 || bytes[1] >= 128))
        return REFUSED(10);
    if (bytes[0] < 1 || bytes[0] > 12) /* two groups make 128 or more */
        return REFUSED(1);
    return bytes[0];
}

static void answers(size_t len)
{
    uint32_t answer = check_dimension(bytes, len);
    expect(answer == due(len), "%u bytes, %02x %02x: %08x", (unsigned)len,
           bytes[0], bytes[1], answer);
}

/* Any bytes behind: few, or as many as can be lent. */
static void answers_before(size_t behind)
{
    random_bytes(bytes + 2, behind);
    answers(2 + behind);
}

void check_dimensions(void)
{
    begin_group("dimension of 0 to 2 bytes, and of more");
    answers(0);
    for (unsigned first = 0; first < 256; first++) {
        bytes[0] = (uint8_t)first;
        answers(1);
        for (unsigned second = 0; second < 256; second++) {
            bytes[1] = (uint8_t)second;
            answers(2);
            answers_before(1 + random_below(40));
        }
        answers_before(MOST_LENT - 2);
    }
    end_group();
}
