/*
 * notice.c: the notice of a cube, in hex, and the cube of a notice. The library
 * writes and reads it, and list text; of how these are made nothing is known here.
 *
 *   notice write N NODE...    the notice of an N-cube with these faulty nodes
 *   notice text N LIST        that of one whose faulty nodes list text gives
 *   notice read FILE HINT     the cube of the notice whose bytes FILE has; where
 *                             it is refused, HINT ends the line that says so
 *   notice list FILE HINT     the same, its faulty nodes as list text
 *
 * tools/notice hands these over, having seen to it that numbers are numbers, and
 * says which exit status means what.
 */
#include <stdio.h>
#include <stdlib.h>
#include <string.h>

#include "hcube.h"

/* Two bytes for each number; what a file has behind these is no notice's. */
#define NOTICE_MAX (2 * (2 + HCUBE_NODES_MAX))

static uint8_t faults[HCUBE_FAULT_BYTES_MAX];

/* ---- a cube */

static void refuse(const char *what, const char *word, uint32_t number)
{
    fprintf(stderr, "notice: %s%s refused: %s (refusal %u)\n", what, word,
            hcube_refusal_text(number), number);
    exit(1);
}

/* Puts the nodes into the table, which has no bit for one of 2^n or more. */
static void put_nodes(uint32_t n, int count, char **words)
{
    for (int i = 0; i < count; i++) {
        unsigned long k = strtoul(words[i], NULL, 10);
        if (k >= HCUBE_NODES(n))
            refuse("node ", words[i], HCUBE_BAD_NODE);
        faults[k / 8] |= (uint8_t)(1u << k % 8);
    }
}

static void put_list(uint32_t n, const char *text)
{
    uint32_t read = hcube_read_list(n, (const uint8_t *)text, strlen(text),
                                    faults, HCUBE_FAULT_BYTES(n));
    if (HCUBE_REFUSAL(read) != HCUBE_ACCEPTED)
        refuse("list", "", HCUBE_REFUSAL(read));
}

/* A bad dimension has no table: it is the library that refuses it. */
static void print_notice(int is_text, int count, char **words)
{
    uint8_t notice[HCUBE_NOTICE_BYTES_MAX];
    uint32_t n = (uint32_t)strtoul(words[0], NULL, 10), written;
    size_t bytes = 0;
    if (n >= 1 && n <= HCUBE_DIMENSION_MAX) {
        bytes = HCUBE_FAULT_BYTES(n);
        if (is_text)
            put_list(n, words[1]);
        else
            put_nodes(n, count - 1, words + 1);
    }
    written = hcube_write_notice(n, faults, bytes, notice, sizeof notice);
    if (HCUBE_REFUSAL(written) != HCUBE_ACCEPTED)
        refuse("cube", "", HCUBE_REFUSAL(written));
    for (uint32_t k = 0; k < HCUBE_VALUE(written); k++)
        printf("%s%02X", k ? " " : "", notice[k]);
    printf("\n");
}

/* ---- a notice */

static size_t read_file(const char *name, uint8_t *bytes, size_t most)
{
    FILE *file = fopen(name, "rb");
    size_t len = file ? fread(bytes, 1, most, file) : 0;
    if (!file || ferror(file)) {
        perror("notice: the notice could not be read");
        exit(2);
    }
    fclose(file);
    return len;
}

static void expect_accepted(uint64_t answer, const char *hint)
{
    uint32_t number = (uint32_t)HCUBE_REFUSAL(answer);
    if (number == HCUBE_ACCEPTED)
        return;
    fprintf(stderr,
            "notice: notice refused: %s (refusal %u at byte %u, counting from "
            "0)%s\n",
            hcube_refusal_text(number), number, (unsigned)HCUBE_VALUE(answer),
            hint);
    exit(1);
}

static void print_nodes(uint32_t n)
{
    for (uint32_t k = 0; k < HCUBE_NODES(n); k++)
        if (faults[k / 8] >> k % 8 & 1)
            printf(" %u", k);
}

static void print_list(uint32_t n)
{
    static uint8_t text[HCUBE_LIST_BYTES_MAX];
    uint32_t written =
        hcube_write_list(n, faults, HCUBE_FAULT_BYTES(n), text, sizeof text);
    if (HCUBE_REFUSAL(written) != HCUBE_ACCEPTED)
        refuse("list", "", HCUBE_REFUSAL(written));
    if (HCUBE_VALUE(written) > 0)
        printf(" %.*s", (int)HCUBE_VALUE(written), (const char *)text);
}

static void print_cube(int is_text, const char *name, const char *hint)
{
    static uint8_t bytes[NOTICE_MAX];
    size_t len = read_file(name, bytes, sizeof bytes);
    uint32_t first = hcube_notice_dimension(bytes, len), n;
    expect_accepted(first, hint);
    n = HCUBE_VALUE(first);
    expect_accepted(
        hcube_read_notice(bytes, len, faults, HCUBE_FAULT_BYTES(n)), hint);
    printf("%u:", n);
    if (is_text)
        print_list(n);
    else
        print_nodes(n);
    printf("\n");
}

/* Whether the first word is this one, and all are so many. */
static int asks(const char *word, int count, int argc, char **argv)
{
    return argc == count && strcmp(argv[1], word) == 0;
}

int main(int argc, char **argv)
{
    int is_text = asks("text", 4, argc, argv), is_list = asks("list", 4, argc, argv);
    if (is_text || (argc >= 3 && strcmp(argv[1], "write") == 0)) {
        print_notice(is_text, argc - 2, argv + 2);
    } else if (is_list || asks("read", 4, argc, argv)) {
        print_cube(is_list, argv[2], argv[3]);
    } else {
        fprintf(stderr, "notice: what is to be done and its words are wanted\n");
        return 2;
    }
    if (fflush(stdout) == 0 && !ferror(stdout))
        return 0;
    perror("notice: it could not be written");
    return 2;
}
