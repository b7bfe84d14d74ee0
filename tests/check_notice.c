/* check_notice.c: what check.c does, for notices that are read and written. */
#include "check.h"

#include <string.h>

#include "cases.h"
#include "lent.h"

static struct lent read_only, writable;
static uint8_t wanted[MOST_LENT];

uint32_t check_dimension(const uint8_t *bytes, size_t len)
{
    uint32_t answer, want = ref_notice_dimension(bytes, len);
    lend(&read_only, bytes, len);
    answer = ask_dimension(read_only.bytes, len);
    expect(answer == want, "dimension of %lu bytes: %08x, not %08x",
           (unsigned long)len, answer, want);
    expect(lent_is(&read_only, bytes), "dimension of %lu bytes: a byte changed",
           (unsigned long)len);
    saw_dimension(want);
    return answer;
}

/* What the dimension alone refuses, the notice is refused for alike. Otherwise it
 * has this dimension, or a table of another length is refused with 2, or a number
 * behind the dimension with 9 to 12. */
static void check_sized(uint32_t dimension, uint64_t notice, size_t faults_len)
{
    uint32_t n = HCUBE_VALUE(dimension);
    uint64_t refusal = HCUBE_REFUSAL(notice);
    int agrees;
    if (HCUBE_REFUSAL(dimension))
        agrees = notice == dimension;
    else if (faults_len != HCUBE_FAULT_BYTES(n))
        agrees = notice == NOTICE_REFUSED(2, 0);
    else
        agrees = refusal ? refusal >= 9 : HCUBE_NOTICE_DIMENSION(notice) == n;
    expect(agrees, "dimension %08x, but notice %016llx", dimension,
           (unsigned long long)notice);
}

uint64_t check_notice(const uint8_t *bytes, size_t len,
                      uint8_t *faults, size_t faults_len)
{
    uint32_t dimension = check_dimension(bytes, len);
    uint64_t answer, want;
    int same;
    lend(&read_only, bytes, len);
    lend(&writable, faults, faults_len);
    memcpy(wanted, faults, faults_len);
    want = ref_read_notice(bytes, len, wanted, faults_len);
    answer = ask_notice(read_only.bytes, len, writable.bytes, faults_len);
    expect(answer == want, "notice of %lu bytes: %016llx, not %016llx",
           (unsigned long)len, (unsigned long long)answer,
           (unsigned long long)want);
    same = lent_is(&read_only, bytes) && lent_is(&writable, wanted);
    expect(same, "notice of %lu bytes (%016llx): wrong bytes",
           (unsigned long)len, (unsigned long long)want);
    saw_notice(want);
    check_sized(dimension, answer, faults_len);
    memcpy(faults, writable.bytes, faults_len);
    return answer;
}

uint64_t check_notice_alone(const uint8_t *bytes, size_t len,
                            size_t faults_len)
{
    static uint8_t faults[MOST_LENT];
    random_bytes(faults, faults_len);
    return check_notice(bytes, len, faults, faults_len);
}

uint32_t check_write(struct write_question asked)
{
    struct write_question lent = asked;
    uint32_t answer, want;
    int same;
    lend(&read_only, asked.faults, asked.faults_len);
    lend(&writable, asked.out, asked.out_len);
    lent.faults = read_only.bytes;
    lent.out = writable.bytes;
    memcpy(wanted, asked.out, asked.out_len);
    want = ref_write_notice(asked.n, asked.faults, asked.faults_len, wanted,
                            asked.out_len);
    answer = ask_write(lent);
    expect(answer == want, "write n=%u, room %lu: %08x, not %08x", asked.n,
           (unsigned long)asked.out_len, answer, want);
    same = lent_is(&read_only, asked.faults) && lent_is(&writable, wanted);
    expect(same, "write n=%u, room %lu (%08x): wrong bytes", asked.n,
           (unsigned long)asked.out_len, want);
    saw_write(asked, want, wanted);
    memcpy(asked.out, writable.bytes, asked.out_len);
    return answer;
}
