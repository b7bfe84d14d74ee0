/*
 * lists.c: writing list text and reading it, as the archive and the two C builds
 * do.
 */
#include <stdio.h>
#include <string.h>

#include "../include/hcube.h"
#include "plain.h"
#include "sides.h"
#include "times.h"

static uint8_t text[HCUBE_LIST_BYTES_MAX], table[MOST_TABLE];
static size_t fault_bytes, text_bytes;

#define WRITE(prefix)                                                          \
    prefix##write_list(n, faults, fault_bytes, text, sizeof text)
#define READ(prefix) prefix##read_list(n, text, text_bytes, table, fault_bytes)

static uint32_t write_once(int side)
{
    switch (side) {
    case ARCHIVE: return WRITE(hcube_);
    case GCC: return WRITE(gcc_);
    default: return WRITE(clang_);
    }
}

static uint32_t read_once(int side)
{
    switch (side) {
    case ARCHIVE: return READ(hcube_);
    case GCC: return READ(gcc_);
    default: return READ(clang_);
    }
}

/* Byte for byte what the archive writes, and the table that it is the text of. */
static void expect_bytes(void)
{
    static uint8_t first[sizeof text];
    for (int side = ARCHIVE; side < SIDES; side++) {
        memset(text, UNTOUCHED, sizeof text);
        write_once(side);
        if (side == ARCHIVE)
            memcpy(first, text, sizeof text);
        expect(memcmp(first, text, sizeof text) == 0, "write list");
        memset(table, UNTOUCHED, sizeof table);
        read_once(side);
        expect(memcmp(faults, table, fault_bytes) == 0, "read list");
    }
}

static void prepare(void)
{
    fault_bytes = HCUBE_FAULT_BYTES(n);
    text_bytes = HCUBE_VALUE(write_once(ARCHIVE));
    expect_alike(write_once, "write list");
    expect_bytes();
    expect_alike(read_once, "read list");
}

void print_list_row(const char *name)
{
    prepare();
    printf("%2u %-16s %6zu", n, name, text_bytes);
    measure(write_once, 1);
    measure(read_once, 1);
    printf("\n");
    fflush(stdout);
}
