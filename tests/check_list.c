/* check_list.c: what check.c does, for list text that is read and written. */
#include "check.h"

#include <string.h>

#include "cases.h"
#include "lent.h"

static struct lent read_only, writable;
static uint8_t wanted[MOST_LENT];

/* The start of the text, as it can be printed; it stands until the next call. */
static const char *shown(struct list_question asked)
{
    static char start[41];
    size_t len = asked.text_len < sizeof start ? asked.text_len : sizeof start - 1;
    for (size_t k = 0; k < len; k++)
        start[k] = asked.text[k] < 32 || asked.text[k] > 126
                       ? '?'
                       : (char)asked.text[k];
    start[len] = 0;
    return start;
}

uint32_t check_list(struct list_question asked)
{
    struct list_question lent = asked;
    uint32_t answer, want;
    int same;
    lend(&read_only, asked.text, asked.text_len);
    lend(&writable, asked.faults, asked.faults_len);
    lent.text = read_only.bytes;
    lent.faults = writable.bytes;
    memcpy(wanted, asked.faults, asked.faults_len);
    want = ref_read_list(asked.n, asked.text, asked.text_len, wanted,
                         asked.faults_len);
    answer = ask_list(lent);
    expect(answer == want, "list n=%u of %lu bytes, \"%s\": %08x, not %08x",
           asked.n, (unsigned long)asked.text_len, shown(asked), answer, want);
    same = lent_is(&read_only, asked.text) && lent_is(&writable, wanted);
    expect(same, "list n=%u of %lu bytes, \"%s\" (%08x): wrong bytes", asked.n,
           (unsigned long)asked.text_len, shown(asked), want);
    saw_list(asked, want);
    memcpy(asked.faults, writable.bytes, asked.faults_len);
    return answer;
}

uint32_t check_list_alone(uint32_t n, const void *text, size_t len)
{
    static uint8_t faults[HCUBE_FAULT_BYTES_MAX];
    put_anything(faults, HCUBE_FAULT_BYTES(n));
    return check_list(fit_list(n, text, len, faults));
}

uint32_t check_write_list(struct write_question asked)
{
    struct write_question lent = asked;
    uint32_t answer, want;
    int same;
    lend(&read_only, asked.faults, asked.faults_len);
    lend(&writable, asked.out, asked.out_len);
    lent.faults = read_only.bytes;
    lent.out = writable.bytes;
    memcpy(wanted, asked.out, asked.out_len);
    want = ref_write_list(asked.n, asked.faults, asked.faults_len, wanted,
                          asked.out_len);
    answer = ask_write_list(lent);
    expect(answer == want, "write list n=%u, room %lu: %08x, not %08x", asked.n,
           (unsigned long)asked.out_len, answer, want);
    same = lent_is(&read_only, asked.faults) && lent_is(&writable, wanted);
    expect(same, "write list n=%u, room %lu (%08x): wrong bytes", asked.n,
           (unsigned long)asked.out_len, want);
    saw_write_list(asked, want, wanted);
    memcpy(asked.out, writable.bytes, asked.out_len);
    return answer;
}
