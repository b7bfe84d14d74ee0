/* repairs.c: repairing a fault table, as the archive and the two C builds do. */
#include <stdio.h>
#include <string.h>

#include "../include/hcube.h"
#include "plain.h"
#include "sides.h"
#include "times.h"

uint16_t masks[8 * MOST_TABLE];
static uint8_t result[MOST_TABLE];
static uint16_t row[HCUBE_NODES_MAX];
static size_t fault_bytes, nodes;

#define REPAIR(prefix)                                                         \
    prefix##repair(n, faults, fault_bytes, masks, nodes, result, fault_bytes,  \
                   row, nodes)

static uint32_t repair_once(int side)
{
    switch (side) {
    case ARCHIVE: return REPAIR(hcube_);
    case GCC: return REPAIR(gcc_);
    default: return REPAIR(clang_);
    }
}

/* Byte for byte what the archive leaves. */
static void expect_bytes(void)
{
    static uint8_t first[MOST_TABLE];
    static uint16_t first_row[HCUBE_NODES_MAX];
    for (int side = ARCHIVE; side < SIDES; side++) {
        memset(result, UNTOUCHED, sizeof result);
        memset(row, UNTOUCHED, sizeof row);
        repair_once(side);
        if (side == ARCHIVE) {
            memcpy(first, result, sizeof result);
            memcpy(first_row, row, sizeof row);
        }
        expect(memcmp(first, result, sizeof result) == 0, "repair, table");
        expect(memcmp(first_row, row, sizeof row) == 0, "repair, row");
    }
}

static unsigned count_added(void)
{
    unsigned added = 0;
    for (size_t k = 0; k < nodes; k++)
        added += row[k] != 0;
    return added;
}

void print_repair_row(const char *name)
{
    fault_bytes = HCUBE_FAULT_BYTES(n);
    nodes = HCUBE_NODES(n);
    expect_alike(repair_once, "repair");
    expect_bytes();
    printf("%2u %-17s %5u", n, name, count_added());
    measure(repair_once, 1);
    printf("\n");
    fflush(stdout);
}
