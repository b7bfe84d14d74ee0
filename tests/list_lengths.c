/*
 * list_lengths.c: reading list text and writing it on buffers of every kind of
 * length, and what is refused since a length is right in its low 32 bits alone.
 */
#define _DEFAULT_SOURCE /* MAP_ANONYMOUS, MAP_NORESERVE */
#include <string.h>
#include <sys/mman.h>

#include "cases.h"
#include "check.h"
#include "groups.h"
#include "lent.h"

static uint8_t faults[MOST_LENT], out[MOST_LENT];

/* Each length of the table from 0 on, and those far too long; the text is a list of
 * the cube, one of a larger one, or none. */
static void lengths_of(uint32_t n)
{
    static const char *const texts[] = {"0-1", "", "9999", "0,"};
    struct list_question read = fit_list(n, NULL, 0, out);
    struct write_question written = fit_write_list(n, faults, out);
    size_t exact = written.faults_len;
    const size_t far[] = {2 * exact, exact + 256, exact + 65536, MOST_LENT};
    random_faults(n, 500, faults);
    for (size_t k = 0; k < 600 + COUNT(far); k++) {
        const char *text = texts[k % COUNT(texts)];
        size_t length = k < 600 ? k : far[k - 600];
        if (length == exact)
            continue;
        read.text = (const uint8_t *)text;
        read.text_len = strlen(text);
        read.faults_len = written.faults_len = length;
        written.out_len = k % 3 ? HCUBE_LIST_BYTES_MAX : 0;
        expect(check_list(read) == REFUSED(2), "list n=%u, a table of %u", n,
               (unsigned)length);
        expect(check_write_list(written) == REFUSED(2),
               "write list n=%u, a table of %u", n, (unsigned)length);
    }
}

/* A text of n = 3 that is a list in its first bytes alone, and none where it is read
 * to its end; and a table that is too long. */
static void read_with(uint8_t *big, size_t beyond)
{
    static const char start[] = "0-3,6";
    uint8_t small[1] = {0x77};
    struct list_question asked = fit_list(3, big, 0, small);
    memcpy(big, start, sizeof start - 1);
    for (unsigned k = 0; k < 6; k++) {
        asked.text_len = beyond + k;
        expect(ask_list(asked) == REFUSED(14), "a text of 2^32 + %u bytes", k);
    }
    asked.text_len = beyond / 2 + 5;
    expect(ask_list(asked) == REFUSED(14), "a text of 2^31 + 5 bytes");
    expect(small[0] == 0x77, "a byte changed");
    asked = fit_list(3, (const uint8_t *)start, sizeof start - 1, big);
    asked.faults_len += beyond;
    expect(ask_list(asked) == REFUSED(2), "a table of 2^32 + 1 bytes");
    expect(!memcmp(big, start, sizeof start - 1), "a byte changed");
}

/* Node 5 of n = 3: what is too long for a text has room for it, and its bytes behind
 * the text stay. */
static void write_with(uint8_t *big, size_t beyond)
{
    static const uint8_t five[1] = {1 << 5};
    uint8_t small[4] = {0};
    struct write_question asked = fit_write_list(3, big, small);
    asked.faults_len += beyond;
    asked.out_len = sizeof small;
    expect(ask_write_list(asked) == REFUSED(2), "a table of 2^32 + 1 bytes");
    asked = fit_write_list(3, five, big);
    memset(big, 0xee, 2 * HCUBE_LIST_BYTES_MAX);
    for (unsigned k = 0; k < 3; k++) {
        asked.out_len = beyond + k;
        expect(ask_write_list(asked) == 1, "room 2^32 + %u", k);
    }
    asked.out_len = beyond / 2;
    expect(ask_write_list(asked) == 1, "room 2^31");
    expect(big[0] == '5', "another text of node 5");
    for (size_t k = 1; k < 2 * HCUBE_LIST_BYTES_MAX; k++)
        expect(big[k] == 0xee && big[beyond - k] == 0, "behind the text: %u",
               (unsigned)k);
}

void check_list_lengths(void)
{
    size_t beyond = (size_t)1 << 32;
    uint8_t *big = mmap(NULL, beyond + 4096, PROT_READ | PROT_WRITE,
                        MAP_PRIVATE | MAP_ANONYMOUS | MAP_NORESERVE, -1, 0);
    begin_group("lists, lengths from 0 to far too long");
    random_bytes(out, sizeof out);
    for (uint32_t n = 1; n <= 12; n++)
        lengths_of(n);
    expect(big != MAP_FAILED, "no address space of 4 GiB");
    if (big != MAP_FAILED) {
        read_with(big, beyond);
        memset(big, 0, 4096);
        write_with(big, beyond);
        munmap(big, beyond + 4096);
    }
    end_group();
}
