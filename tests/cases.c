/* cases.c: random numbers, tables, notices, lists and masks for the tests. */
#include "cases.h"

#include <string.h>

static uint64_t state = 1;

void random_seed(uint64_t seed)
{
    state = seed;
}

/* splitmix64 */
uint64_t random_bits(void)
{
    uint64_t z = state += 0x9e3779b97f4a7c15u;
    z = (z ^ z >> 30) * 0xbf58476d1ce4e5b9u;
    z = (z ^ z >> 27) * 0x94d049bb133111ebu;
    return z ^ z >> 31;
}

uint32_t random_below(uint32_t bound)
{
    return (uint32_t)((random_bits() >> 32) * bound >> 32);
}

void random_bytes(uint8_t *bytes, size_t len)
{
    for (size_t k = 0; k < len; k++)
        bytes[k] = (uint8_t)random_bits();
}

static size_t table_bytes(uint32_t n)
{
    return n <= 3 ? 1 : ((size_t)1 << n) / 8;
}

int in_table(const uint8_t *table, uint32_t k)
{
    return table[k / 8] >> (k % 8) & 1;
}

void put_node(uint8_t *table, uint32_t k)
{
    table[k / 8] |= (uint8_t)(1u << (k % 8));
}

void random_faults(uint32_t n, unsigned per_mille, uint8_t *faults)
{
    memset(faults, 0, table_bytes(n));
    for (uint32_t k = 0; k < 1u << n; k++)
        if (random_below(1000) < per_mille)
            put_node(faults, k);
}

/* Around 1/n to 3/n a node's neighbours decide; there the exchanges are many. */
unsigned random_density(uint32_t n)
{
    switch (random_below(8)) {
    case 0: return 0;
    case 1: return 1000 / (1u << n) + 1;
    case 2: return random_below(1001);
    case 3: return 1000;
    default: return 20 + random_below(2000 / n);
    }
}

void random_draining(uint32_t n, uint8_t *faults, uint8_t *draining)
{
    switch (random_below(4)) {
    case 0: memset(draining, 0, table_bytes(n)); return;
    case 1: random_faults(n, 1000 / (1u << n) + 1, draining); return;
    case 2: random_faults(n, random_density(n), draining); return;
    }
    for (size_t k = 0; k < table_bytes(n); k++) {
        draining[k] = (uint8_t)(faults[k] & random_bits());
        faults[k] &= (uint8_t)(~draining[k] | random_bits());
    }
}

void random_closed(uint32_t n, uint8_t *faults, uint8_t *draining,
                   uint8_t *closed)
{
    memset(closed, 0, table_bytes(n));
    switch (random_below(6)) {
    case 0: random_faults(n, 1000 / (1u << n) + 1, closed); return;
    case 1: random_faults(n, random_density(n), closed); return;
    case 2: break;
    default: return;
    }
    for (size_t k = 0; k < table_bytes(n); k++) {
        closed[k] = (uint8_t)((faults[k] | draining[k]) & random_bits());
        faults[k] &= (uint8_t)(~closed[k] | random_bits());
        draining[k] &= (uint8_t)(~closed[k] | random_bits());
    }
}

void random_labels(uint32_t n, unsigned most, uint8_t *labels)
{
    for (uint32_t k = 0; k < 1u << n; k++)
        labels[k] = (uint8_t)random_below(most + 1);
}

size_t put_number(uint32_t value, uint8_t *bytes)
{
    bytes[0] = (uint8_t)(value & 127);
    if (value < 128)
        return 1;
    bytes[0] |= 128;
    bytes[1] = (uint8_t)(value >> 7);
    return 2;
}

size_t put_notice(uint32_t n, const uint8_t *faults, uint8_t *bytes,
                  size_t *places)
{
    uint32_t count = 0, due = 0;
    size_t at;
    for (uint32_t k = 0; k < 1u << n; k++)
        count += (uint32_t)in_table(faults, k);
    *places++ = 0;
    at = put_number(n, bytes);
    *places++ = at;
    at += put_number(count, bytes + at);
    for (uint32_t k = 0; k < 1u << n; k++)
        if (in_table(faults, k)) {
            *places++ = at;
            at += put_number(k - due, bytes + at);
            due = k + 1;
        }
    *places = at;
    return at;
}

size_t put_digits(uint32_t value, uint8_t *text)
{
    size_t count = value < 10 ? 0 : put_digits(value / 10, text);
    text[count] = (uint8_t)('0' + value % 10);
    return count + 1;
}

/* A faulty node begins a run, ends one, both, or stands within. */
size_t put_list(uint32_t n, const uint8_t *faults, uint8_t *text)
{
    uint32_t last = (1u << n) - 1;
    size_t at = 0;
    for (uint32_t k = 0; k <= last; k++) {
        int before = k > 0 && in_table(faults, k - 1);
        int behind = k < last && in_table(faults, k + 1);
        if (!in_table(faults, k) || (before && behind))
            continue;
        if (at > 0)
            text[at++] = before ? '-' : ',';
        at += put_digits(k, text + at);
    }
    return at;
}

void worst_list(uint32_t n, uint8_t *faults)
{
    memset(faults, 0, table_bytes(n));
    for (uint32_t k = 0; k < 1u << n; k++)
        if (k % 3 != 2)
            put_node(faults, k);
}

void masks_of(uint32_t n, const uint8_t *dead, uint16_t *masks)
{
    for (uint32_t w = 0; w < 1u << n; w++) {
        masks[w] = 0;
        for (uint32_t i = 0; i < n && !in_table(dead, w); i++)
            masks[w] |= (uint16_t)(in_table(dead, w ^ 1u << i) << i);
    }
}

/* Each bit below n is set with this chance per mille. */
static void each_bit(uint32_t n, unsigned per_mille, uint16_t *masks)
{
    for (uint32_t w = 0; w < 1u << n; w++) {
        masks[w] = 0;
        for (uint32_t i = 0; i < n; i++)
            if (random_below(1000) < per_mille)
                masks[w] |= (uint16_t)(1u << i);
    }
}

void random_masks(uint32_t n, uint16_t *masks)
{
    uint8_t dead[512];
    switch (random_below(8)) {
    case 0: each_bit(n, 0, masks); return;
    case 1: each_bit(n, 1000, masks); return;
    case 2: each_bit(n, random_below(1001), masks); return;
    case 3: each_bit(n, 1000 / (1u << n) + 1, masks); return;
    case 4: each_bit(n, 1 + 100 / n, masks); return;
    }
    random_faults(n, random_density(n), dead);
    masks_of(n, dead, masks);
}
