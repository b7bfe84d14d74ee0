/*
 * draining.c: draining nodes (RULES, Which nodes work, Labels, One hop). In
 * labelling they count as faulty, and without any the labels are those of the faulty
 * nodes alone. They take what is addressed to them and forward nothing. What is
 * expected stands here once more and is not asked of the reference.
 */
#include <string.h>

#include "cabinet.h"
#include "cases.h"
#include "check.h"
#include "groups.h"

/* ---- labelling */

static unsigned count_near(uint32_t n, uint32_t k, const uint8_t *bytes,
                           uint8_t least, uint8_t most)
{
    unsigned count = 0;
    for (uint32_t i = 0; i < n; i++)
        count += bytes[k ^ 1u << i] >= least && bytes[k ^ 1u << i] <= most;
    return count;
}

/* The labels of a fault table, without draining nodes (RULES, Labels). A mark is 2
 * and is put in place: that makes the same labels, and says nothing of exchanges. */
static void older_labels(uint32_t n, uint32_t rule, const uint8_t *table,
                         uint8_t *older)
{
    int something_new;
    for (uint32_t k = 0; k < 1u << n; k++)
        older[k] = in_table(table, k) ? 3 : 0;
    do {
        something_new = 0;
        for (uint32_t k = 0; k < 1u << n; k++)
            if (older[k] == 0 && (count_near(n, k, older, 3, 3) >= 2 ||
                                  count_near(n, k, older, 2, 3) >= rule)) {
                older[k] = 2;
                something_new = 1;
            }
    } while (something_new);
    for (uint32_t k = 0; k < 1u << n; k++)
        if (older[k] == 2 && count_near(n, k, older, 0, 0) > 0)
            older[k] = 1;
}

/* The tables at hand, and then one fault table with all that do not work. A closed
 * node counts as faulty too, and has the label of a faulty one. */
static void counts_as_faulty(uint32_t n, uint32_t rule)
{
    static uint8_t older[MOST_NODES], want[MOST_NODES], got[MOST_NODES];
    uint32_t answer = label_cabinet(n, rule);
    memcpy(got, labels, (size_t)1 << n);
    for (uint32_t k = 0; k < 1u << n; k++)
        want[k] = in_table(faults, k) || in_table(closed, k) ? HCUBE_FAULTY
                  : in_table(draining, k)                    ? HCUBE_DRAINING
                                                             : HCUBE_SAFE;
    for (size_t k = 0; k < HCUBE_FAULT_BYTES(n); k++) {
        faults[k] |= draining[k] | closed[k];
        draining[k] = closed[k] = 0;
    }
    expect(label_cabinet(n, rule) == answer, "n = %u by %u: other exchanges", n,
           rule);
    older_labels(n, rule, faults, older);
    expect(!memcmp(labels, older, (size_t)1 << n),
           "n = %u by %u, faulty nodes alone: not their labels", n, rule);
    for (uint32_t k = 0; k < 1u << n; k++)
        want[k] = want[k] ? want[k] : older[k];
    expect(!memcmp(got, want, (size_t)1 << n),
           "n = %u by %u: a draining or closed node is not as a faulty one", n,
           rule);
}

void check_draining(void)
{
    begin_group("draining and closed nodes count as faulty, both rules");
    for (unsigned k = 0; k < 1200; k++) {
        uint32_t n = 1 + k % 12;
        random_cabinet(n, random_density(n));
        counts_as_faulty(n, 2 + k / 12 % 2);
    }
    end_group();
}

/* ---- ends of hops and walks */

static void hop_is(uint32_t n, uint32_t c, uint32_t d, uint32_t answer)
{
    uint32_t got = check_hop(fit_hop(n, c, d, labels));
    expect(got == answer, "n = %u, labels %u and %u: hop %u to %u is %08x", n,
           labels[c], labels[d], c, d, got);
}

static void walk_is(uint32_t n, uint32_t s, uint32_t d, uint32_t answer)
{
    uint8_t row[ROW_BYTES];
    uint32_t got = walk_by(labels, n, s, d, row);
    expect(got == answer, "n = %u, labels %u and %u: walk %u to %u is %08x", n,
           labels[s], labels[d], s, d, got);
}

#define CROSS(i) (0x10000u + (i))
#define HALT 0x20000u

/* The hop where no forward dimension may be crossed and the nodes across all
 * others have this label. */
static uint32_t aside(uint32_t n, uint32_t forward, uint8_t label)
{
    for (uint32_t i = 0; i < n; i++)
        if (!(forward >> i & 1) && label <= HCUBE_ORDINARY)
            return CROSS(i);
    return HALT;
}

/* At the destination itself: it delivers here, but nothing starts here. */
static void at_destination(uint32_t n, uint32_t d)
{
    uint32_t beside = d ^ 1u << random_below(n);
    uint8_t kept = labels[beside];
    labels[d] = HCUBE_DRAINING;
    hop_is(n, d, d, 0);
    walk_is(n, d, d, REFUSED(6));
    labels[beside] = LAST_LABEL + 1;
    hop_is(n, d, d, REFUSED(4));
    walk_is(n, d, d, REFUSED(4));
    labels[beside] = kept;
    labels[d] = HCUBE_FAULTY;
    hop_is(n, d, d, REFUSED(6));
    walk_is(n, d, d, REFUSED(6));
}

/* Across i from a working node: taken if it is draining, not if it is faulty. */
static void beside_destination(uint32_t n, uint32_t d, uint32_t i, uint8_t rest)
{
    uint32_t c = d ^ 1u << i;
    for (uint8_t own = HCUBE_SAFE; own <= HCUBE_STRONG; own++) {
        labels[c] = own;
        labels[d] = HCUBE_DRAINING;
        hop_is(n, c, d, CROSS(i));
        walk_is(n, c, d, 1);
        labels[d] = HCUBE_FAULTY;
        hop_is(n, c, d, aside(n, 1u << i, rest));
        walk_is(n, c, d, REFUSED(7));
    }
    labels[c] = rest;
}

/* Two hops away, with all between the ends faulty or draining, the destination is
 * no reason to go there; with a working node between them it is reached by it. */
static void two_away(uint32_t n, uint32_t d, uint32_t i, uint8_t rest)
{
    uint32_t j = (i + 1 + random_below(n - 1)) % n;
    uint32_t c = d ^ 1u << i ^ 1u << j;
    labels[d] = HCUBE_DRAINING;
    labels[c] = (uint8_t)random_below(3);
    labels[d ^ 1u << i] = labels[d ^ 1u << j] = HCUBE_DRAINING;
    hop_is(n, c, d, aside(n, 1u << i | 1u << j, rest));
    labels[d ^ 1u << i] = HCUBE_FAULTY;
    hop_is(n, c, d, aside(n, 1u << i | 1u << j, rest));
    labels[d ^ 1u << i] = (uint8_t)random_below(3);
    hop_is(n, c, d, CROSS(j));
    walk_is(n, c, d, 2);
    labels[c] = labels[d ^ 1u << i] = labels[d ^ 1u << j] = rest;
}

/* Nothing goes on from a draining node, whatever is beside it. */
static void from_draining(uint32_t n, uint32_t c, uint32_t i)
{
    uint32_t beside = c ^ 1u << i, far = c ^ ((1u << n) - 1);
    labels[c] = HCUBE_DRAINING;
    for (uint8_t label = HCUBE_SAFE; label <= HCUBE_DRAINING; label++) {
        labels[beside] = label;
        hop_is(n, c, beside, REFUSED(6));
        walk_is(n, c, beside, REFUSED(6));
        hop_is(n, c, far, REFUSED(6));
        walk_is(n, c, far, REFUSED(6));
    }
}

/* No byte above 4 is a label, at c or beside it, also where that is the only one
 * that is not draining. */
static void bad_bytes(uint32_t n, uint32_t c, uint32_t i, uint8_t rest)
{
    uint32_t beside = c ^ 1u << i, far = c ^ ((1u << n) - 1);
    for (unsigned byte = LAST_LABEL + 1; byte <= 255; byte++) {
        labels[beside] = rest;
        labels[c] = (uint8_t)byte;
        hop_is(n, c, far, REFUSED(4));
        labels[c] = HCUBE_SAFE;
        labels[beside] = (uint8_t)byte;
        hop_is(n, c, far, REFUSED(4));
    }
    labels[c] = labels[beside] = rest;
}

void check_draining_ends(void)
{
    begin_group("draining ends of hops and walks");
    for (unsigned k = 0; k < 12 * (LAST_LABEL + 1) * 8; k++) {
        uint32_t n = 1 + k % 12, d = random_below(1u << n), i = random_below(n);
        uint8_t rest = (uint8_t)(k / 12 % (LAST_LABEL + 1));
        memset(labels, rest, (size_t)1 << n);
        at_destination(n, d);
        beside_destination(n, d, i, rest);
        if (n > 1)
            two_away(n, d, i, rest);
        from_draining(n, d, i);
        if (k < 12 * (LAST_LABEL + 1))
            bad_bytes(n, d, i, rest);
    }
    end_group();
}
