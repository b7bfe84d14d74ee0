/*
 * plain_notice.c: the library's algorithm in plain C, to measure the archive
 * against: writing a notice and reading one. PREFIX is the prefix of the
 * functions' names.
 */
#include "plain.h"

/* ---- writing: a pass over the nodes that counts, and one that writes */

static int is_faulty(const uint8_t *faults, uint32_t k)
{
    return faults[k / 8] >> (k % 8) & 1;
}

static size_t groups(uint32_t value)
{
    return value < 128 ? 1 : 2;
}

/* Puts a number, and gives the place behind it. */
static size_t put(uint8_t *out, size_t at, uint32_t value)
{
    if (value < 128) {
        out[at] = (uint8_t)value;
        return at + 1;
    }
    out[at] = (uint8_t)(value % 128 + 128);
    out[at + 1] = (uint8_t)(value / 128);
    return at + 2;
}

uint32_t NAME(write_notice)(uint32_t n, const uint8_t *faults,
                            size_t faults_len, uint8_t *out, size_t out_len)
{
    uint32_t count = 0, base = 0;
    size_t bytes = 0, at;
    if (n < 1 || n > 12)
        return refused(1);
    if (faults_len != (((size_t)1 << n) + 7) / 8)
        return refused(2);
    if (n < 3 && faults[0] >> (1u << n))
        return refused(3);
    for (uint32_t k = 0; k < 1u << n; k++)
        if (is_faulty(faults, k)) {
            bytes += groups(k - base);
            base = k + 1;
            count++;
        }
    if (groups(n) + groups(count) + bytes > out_len)
        return refused(13);
    at = put(out, put(out, 0, n), count);
    base = 0;
    for (uint32_t k = 0; k < 1u << n; k++)
        if (is_faulty(faults, k)) {
            at = put(out, at, k - base);
            base = k + 1;
        }
    return (uint32_t)at;
}

/* ---- reading: a pass over the addresses that checks, and one that writes */

struct number {
    uint32_t refusal, value;
    size_t next; /* the place behind it; of a refusal, where it begins */
};

static inline struct number number_at(const uint8_t *bytes, size_t len,
                                      size_t at)
{
    struct number number = {0, 0, at};
    if (at >= len) {
        number.refusal = 9;
    } else if (bytes[at] < 128) {
        number.value = bytes[at];
        number.next = at + 1;
    } else if (len - at < 2) {
        number.refusal = 9;
    } else if (bytes[at + 1] == 0 || bytes[at + 1] > 127) {
        number.refusal = 10;
    } else {
        number.value = bytes[at] - 128u + 128u * bytes[at + 1];
        number.next = at + 2;
    }
    return number;
}

static struct number check_addresses(const uint8_t *bytes, size_t len,
                                     size_t at, uint32_t count, uint32_t size)
{
    struct number number = {0, 0, at};
    uint32_t base = 0;
    for (; count; count--) {
        at = number.next;
        number = number_at(bytes, len, at);
        if (number.refusal)
            return number;
        if (base + number.value >= size) {
            number.refusal = 12;
            number.next = at;
            return number;
        }
        base += number.value + 1;
    }
    return number;
}

static void write_addresses(const uint8_t *bytes, size_t len, size_t at,
                            uint32_t count, uint8_t *faults)
{
    uint32_t base = 0;
    for (; count; count--) {
        struct number number = number_at(bytes, len, at);
        uint32_t k = base + number.value;
        faults[k / 8] |= (uint8_t)(1u << (k % 8));
        base = k + 1;
        at = number.next;
    }
}

static uint64_t refused_at(uint32_t refusal, size_t place)
{
    return refused(refusal) + place;
}

uint64_t NAME(read_notice)(const uint8_t *bytes, size_t len, uint8_t *faults,
                           size_t faults_len)
{
    struct number first = number_at(bytes, len, 0), count, last;
    uint32_t size;
    if (first.refusal)
        return refused_at(first.refusal, 0);
    if (first.value < 1 || first.value > 12)
        return refused_at(1, 0);
    size = 1u << first.value;
    if (faults_len != (size + 7) / 8)
        return refused_at(2, 0);
    count = number_at(bytes, len, first.next);
    if (count.refusal)
        return refused_at(count.refusal, count.next);
    if (count.value > size)
        return refused_at(11, first.next);
    last = check_addresses(bytes, len, count.next, count.value, size);
    if (last.refusal)
        return refused_at(last.refusal, last.next);
    for (size_t k = 0; k < faults_len; k++)
        faults[k] = 0;
    write_addresses(bytes, len, count.next, count.value, faults);
    return ((uint64_t)first.value << 48) + ((uint64_t)count.value << 32) +
           last.next;
}
