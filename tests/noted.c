/* noted.c: noted accesses against expected ones. */
#include "noted.h"

#include <stdio.h>

#include "../include/hcube.h"
#include "watch.h"

size_t at;
char wrong[160];
static uint32_t n, job;

void expect_from_start(uint32_t dimension, uint32_t number)
{
    n = dimension;
    job = number;
    at = 0;
    *wrong = 0;
}

static const char *kind(int write)
{
    return write ? "write" : "read";
}

static int in_half(void)
{
    int32_t first = (int32_t)HCUBE_HALF(n, job), place = notes[at].place;
    return place >= first && place < first + (int32_t)HCUBE_NODES(n);
}

void expect_access(int write, uint32_t node, const char *what)
{
    int32_t place = (int32_t)(HCUBE_HALF(n, job) + node);
    if (*wrong)
        return;
    if (at == noted)
        snprintf(wrong, sizeof wrong, "%s: no more accesses", what);
    else if (notes[at].is_write != write || notes[at].place != place)
        snprintf(wrong, sizeof wrong, "%s: %s at %d and not %s at %d", what,
                 kind(notes[at].is_write), (int)notes[at].place, kind(write),
                 (int)place);
    else
        at++;
}

void expect_neighbours(uint32_t node, uint32_t so_many, const char *what)
{
    for (uint32_t i = 0; i < so_many; i++)
        expect_access(0, node ^ 1u << i, what);
}

/* Which label around the node was read: n is its own, and i that across dimension i;
 * more where it was none of them. */
static uint32_t read_around(uint32_t node)
{
    int32_t first = (int32_t)HCUBE_HALF(n, job), place = notes[at].place - first;
    uint32_t i = 0;
    if (notes[at].is_write || !in_half())
        return n + 1;
    while (i < n && (uint32_t)place != (node ^ 1u << i))
        i++;
    return i < n || (uint32_t)place == node ? i : n + 1;
}

void expect_around(uint32_t node, const char *what)
{
    uint32_t read = 0, i;
    for (uint32_t k = 0; k <= n && !*wrong; k++) {
        i = at < noted ? read_around(node) : n + 1;
        if (i > n || read >> i & 1)
            snprintf(wrong, sizeof wrong, "%s: after %u labels another access, or none",
                     what, (unsigned)k);
        else
            at++;
        read |= 1u << i;
    }
}

static void expect_all(int write)
{
    while (at < noted && notes[at].is_write == write && in_half())
        at++;
}

void expect_writes(void)
{
    expect_all(1);
}

void expect_reads(void)
{
    expect_all(0);
}

void expect_half(void)
{
    while (at < noted && in_half())
        at++;
}

void expect_pass(void)
{
    int32_t last[2] = {-1, -1};
    while (at < noted && in_half() && notes[at].place > last[notes[at].is_write]) {
        last[notes[at].is_write] = notes[at].place;
        at++;
    }
}

void expect_end(void)
{
    if (!*wrong && at < noted)
        snprintf(wrong, sizeof wrong, "%u accesses too many, the first a %s at %d",
                 (unsigned)(noted - at), kind(notes[at].is_write),
                 (int)notes[at].place);
}
