/*
 * plain_list.c: the library's algorithm in plain C, to measure the archive
 * against: reading list text and writing it. PREFIX is the prefix of the
 * functions' names.
 */
#include "plain.h"

/* ---- reading: a pass over the entries that judges, and one that sets bits */

#define BEYOND 4096u /* stands for this number and all above it: they are no node */

/* Digits, and their value or BEYOND. */
struct number {
    size_t begins, end;
    uint32_t value;
};

static inline int is_digit(uint8_t byte)
{
    return byte >= '0' && byte <= '9';
}

/* The first four digits need no cap on the way: three stay below BEYOND. */
static inline struct number number_at(const uint8_t *text, size_t len,
                                      size_t at)
{
    struct number number = {at, at, 0};
    for (int k = 0; k < 4; k++, at++) {
        if (at >= len || !is_digit(text[at])) {
            number.end = at;
            return number;
        }
        number.value = 10 * number.value + (text[at] - '0');
    }
    for (; at < len && is_digit(text[at]); at++) {
        if (number.value > BEYOND)
            number.value = BEYOND;
        number.value = 10 * number.value + (text[at] - '0');
    }
    if (number.value > BEYOND)
        number.value = BEYOND;
    number.end = at;
    return number;
}

static inline int is_good(const uint8_t *text, struct number number)
{
    size_t count = number.end - number.begins;
    return count == 1 || (count > 1 && text[number.begins] != '0');
}

/* By their digits. */
static int is_above(const uint8_t *text, struct number a, struct number b)
{
    size_t count = a.end - a.begins;
    if (count != b.end - b.begins)
        return count > b.end - b.begins;
    for (size_t k = 0; k < count; k++)
        if (text[a.begins + k] != text[b.begins + k])
            return text[a.begins + k] > text[b.begins + k];
    return 0;
}

static uint32_t judge(const uint8_t *text, size_t len, uint32_t size)
{
    int is_far = 0;
    size_t at = 0;
    if (len == 0)
        return 0;
    for (;; at++) {
        struct number low = number_at(text, len, at), high = low;
        if (!is_good(text, low))
            return 14;
        if (low.end < len && text[low.end] == '-') {
            high = number_at(text, len, low.end + 1);
            if (!is_good(text, high) || is_above(text, low, high))
                return 14;
        }
        is_far |= high.value >= size;
        at = high.end;
        if (at == len)
            return is_far ? 12 : 0;
        if (text[at] != ',')
            return 14;
    }
}

/* Whole bytes at once where they are in the run. */
static void set_run(uint8_t *faults, uint32_t low, uint32_t high)
{
    uint32_t k = low;
    while (k <= high) {
        if (k % 8 == 0 && high - k >= 7) {
            faults[k / 8] = 255;
            k += 8;
        } else {
            faults[k / 8] |= (uint8_t)(1u << (k % 8));
            k++;
        }
    }
}

static void set_runs(const uint8_t *text, size_t len, uint8_t *faults)
{
    for (size_t at = 0; at < len; at++) {
        struct number low = number_at(text, len, at), high = low;
        if (low.end < len && text[low.end] == '-')
            high = number_at(text, len, low.end + 1);
        set_run(faults, low.value, high.value);
        at = high.end;
    }
}

uint32_t NAME(read_list)(uint32_t n, const uint8_t *text, size_t text_len,
                         uint8_t *faults, size_t faults_len)
{
    uint32_t refusal;
    if (n < 1 || n > 12)
        return refused(1);
    if (faults_len != (((size_t)1 << n) + 7) / 8)
        return refused(2);
    refusal = judge(text, text_len, 1u << n);
    if (refusal)
        return refused(refusal);
    for (size_t k = 0; k < faults_len; k++)
        faults[k] = 0;
    set_runs(text, text_len, faults);
    return 0;
}

/* ---- writing: a pass over the runs that measures, and one that writes */

static int is_faulty(const uint8_t *faults, uint32_t k)
{
    return faults[k / 8] >> (k % 8) & 1;
}

/* The first node from k on that does not work, or 2^n. */
static uint32_t run_begin(const uint8_t *faults, uint32_t size, uint32_t k)
{
    while (k < size && !is_faulty(faults, k))
        k++;
    return k;
}

/* The node behind the run that begins at k. */
static uint32_t run_end(const uint8_t *faults, uint32_t size, uint32_t k)
{
    while (k < size && is_faulty(faults, k))
        k++;
    return k;
}

static size_t digits(uint32_t v)
{
    return v < 10 ? 1 : v < 100 ? 2 : v < 1000 ? 3 : 4;
}

static size_t put(uint8_t *out, size_t at, uint32_t v)
{
    size_t count = digits(v);
    for (size_t k = count; k-- > 0; v /= 10)
        out[at + k] = (uint8_t)('0' + v % 10);
    return at + count;
}

static size_t measure(const uint8_t *faults, uint32_t size)
{
    size_t len = 0;
    uint32_t low, end;
    for (low = run_begin(faults, size, 0); low < size;
         low = run_begin(faults, size, end)) {
        end = run_end(faults, size, low);
        len += (len > 0) + digits(low);
        if (end - low > 1)
            len += 1 + digits(end - 1);
    }
    return len;
}

static void put_runs(const uint8_t *faults, uint32_t size, uint8_t *out)
{
    size_t at = 0;
    uint32_t low, end;
    for (low = run_begin(faults, size, 0); low < size;
         low = run_begin(faults, size, end)) {
        end = run_end(faults, size, low);
        if (at > 0)
            out[at++] = ',';
        at = put(out, at, low);
        if (end - low > 1) {
            out[at++] = '-';
            at = put(out, at, end - 1);
        }
    }
}

uint32_t NAME(write_list)(uint32_t n, const uint8_t *faults, size_t faults_len,
                          uint8_t *out, size_t out_len)
{
    size_t len;
    if (n < 1 || n > 12)
        return refused(1);
    if (faults_len != (((size_t)1 << n) + 7) / 8)
        return refused(2);
    if (n < 3 && faults[0] >> (1u << n))
        return refused(3);
    len = measure(faults, 1u << n);
    if (len > out_len)
        return refused(13);
    put_runs(faults, 1u << n, out);
    return (uint32_t)len;
}
