/*
 * header_run.c: runs the functions that hcube.h itself has. Compiled by
 * tests/header, which writes refusals.h: REFUSAL(name) for each refusal that
 * the header defines.
 */
#include <stdio.h>
#include <string.h>
#include "hcube.h"

/* Every refusal of the header. */
static const struct {
    const char *name;
    uint32_t number;
} refusals[] = {
#define REFUSAL(name) {#name, name},
#include "refusals.h"
};
#define COUNT (sizeof refusals / sizeof refusals[0])

static unsigned failed;

static void expect(int holds, const char *what, uint32_t number)
{
    if (holds)
        return;
    printf("  %s: %u, \"%s\", \"%s\"\n", what, (unsigned)number,
           hcube_refusal_text(number), hcube_scan_text(number));
    failed++;
}

static int is_refusal(uint32_t number)
{
    return number <= 19;
}

static int is_default(uint32_t number)
{
    return strcmp(hcube_refusal_text(number), "no such refusal") == 0;
}

/* Each refusal has a text of its own, no other number has one. */
static void texts(void)
{
    static const uint32_t large[] = {256, 268, 65536, 65537, 16777216u,
                                     0x7fffffffu, 0x80000001u, 0xffffffffu};
    size_t i, k;
    uint32_t number;

    expect(COUNT == 20, "refusals of the header", (uint32_t)COUNT);
    for (i = 0; i < COUNT; i++) {
        const char *text = hcube_refusal_text(refusals[i].number);
        expect(is_refusal(refusals[i].number), refusals[i].name,
               refusals[i].number);
        expect(text[0] != '\0', "an empty text", refusals[i].number);
        for (k = 0; k < i; k++)
            expect(strcmp(text, hcube_refusal_text(refusals[k].number)) != 0,
                   "a text of two", refusals[i].number);
    }
    for (number = 0; number < 256; number++)
        expect(is_default(number) == !is_refusal(number), "the default's text",
               number);
    for (i = 0; i < sizeof large / sizeof large[0]; i++)
        expect(is_default(large[i]), "the default's text", large[i]);
    expect(strstr(hcube_refusal_text(13), "too short") != 0, "no room", 13);
    expect(strstr(hcube_refusal_text(14), "0-3,8") != 0, "no list", 14);
    expect(strstr(hcube_refusal_text(15), "1 to 5") != 0, "no board", 15);
    expect(strstr(hcube_refusal_text(16), "network") != 0, "no network", 16);
    expect(strstr(hcube_refusal_text(17), "mask") != 0, "no mask", 17);
}

static int is_no_scan(uint32_t number)
{
    return strcmp(hcube_scan_text(number), "no such scan") == 0;
}

/* Each scan, 0 to 5, has a text of its own, no other number has one. */
static void scans(void)
{
    static const uint32_t large[] = {256, 257, 65536, 65541, 0x80000001u,
                                     0xffffffffu};
    uint32_t scan, before;
    size_t i;

    for (scan = 0; scan <= 5; scan++) {
        expect(hcube_scan_text(scan)[0] != '\0', "an empty text", scan);
        for (before = 0; before < scan; before++)
            expect(strcmp(hcube_scan_text(scan), hcube_scan_text(before)) != 0,
                   "a scan's text of two", scan);
    }
    for (scan = 0; scan < 256; scan++)
        expect(is_no_scan(scan) == (scan > 5), "the default's text, scan",
               scan);
    for (i = 0; i < sizeof large / sizeof large[0]; i++)
        expect(is_no_scan(large[i]), "the default's text, scan", large[i]);
}

/* The words of a text say what the scan takes: how it goes, and to which node. */
static void scan_words(void)
{
    static const struct {
        const char *way, *node;
    } of[] = {{"to the destination", "draining"},
              {"forward", " safe"},
              {"forward", "ordinarily unsafe"},
              {"forward", "strongly unsafe"},
              {"aside", " safe"},
              {"aside", "ordinarily unsafe"}};
    uint32_t scan;

    for (scan = 0; scan <= 5; scan++) {
        const char *text = hcube_scan_text(scan);
        expect(strstr(text, of[scan].way) == text, "the way, scan", scan);
        expect(strstr(text, of[scan].node) != 0, "the node, scan", scan);
    }
}

/* Each place of a row has its two bytes, low byte first. */
static void nodes(void)
{
    uint8_t row[HCUBE_ROW_BYTES];
    uint32_t place;

    for (place = 0; place < sizeof row / 2; place++) {
        row[2 * place] = (uint8_t)(255 - 3 * place);
        row[2 * place + 1] = (uint8_t)(240 - 7 * place);
    }
    for (place = 0; place < sizeof row / 2; place++)
        expect(hcube_row_node(row, place) ==
                   (240 - 7 * place) * 256 + 255 - 3 * place,
               "place of a row", place);
    memset(row, 255, sizeof row);
    expect(hcube_row_node(row, 16) == 65535, "the highest bytes", 16);
}

int main(void)
{
    texts();
    scans();
    scan_words();
    nodes();
    return failed != 0;
}
