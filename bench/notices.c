/*
 * notices.c: writing a notice and reading it, as the archive and the two C builds
 * do.
 */
#include <stdio.h>
#include <string.h>

#include "../include/hcube.h"
#include "plain.h"
#include "sides.h"
#include "times.h"

static uint8_t notice[HCUBE_NOTICE_BYTES_MAX], table[MOST_TABLE];
static size_t fault_bytes, notice_bytes;

#define WRITE(prefix)                                                          \
    prefix##write_notice(n, faults, fault_bytes, notice, sizeof notice)
#define READ(prefix)                                                           \
    prefix##read_notice(notice, notice_bytes, table, fault_bytes)

static uint32_t write_once(int side)
{
    switch (side) {
    case ARCHIVE: return WRITE(hcube_);
    case GCC: return WRITE(gcc_);
    default: return WRITE(clang_);
    }
}

static uint32_t read_once(int side)
{
    uint64_t answer = side == ARCHIVE ? READ(hcube_)
                      : side == GCC   ? READ(gcc_)
                                      : READ(clang_);
    return (uint32_t)answer * 31 + (uint32_t)(answer >> 32);
}

/* Byte for byte what the archive writes, and the table that it is the notice of. */
static void expect_bytes(void)
{
    static uint8_t first[sizeof notice];
    for (int side = ARCHIVE; side < SIDES; side++) {
        memset(notice, UNTOUCHED, sizeof notice);
        write_once(side);
        if (side == ARCHIVE)
            memcpy(first, notice, sizeof notice);
        expect(memcmp(first, notice, sizeof notice) == 0, "write");
        memset(table, UNTOUCHED, sizeof table);
        read_once(side);
        expect(memcmp(faults, table, fault_bytes) == 0, "read");
    }
}

static void prepare(void)
{
    fault_bytes = HCUBE_FAULT_BYTES(n);
    notice_bytes = HCUBE_VALUE(write_once(ARCHIVE));
    expect_alike(write_once, "write");
    expect_bytes();
    expect_alike(read_once, "read");
}

void print_notice_row(const char *name)
{
    prepare();
    printf("%2u %-16s %6zu", n, name, notice_bytes);
    measure(write_once, 1);
    measure(read_once, 1);
    printf("\n");
    fflush(stdout);
}
