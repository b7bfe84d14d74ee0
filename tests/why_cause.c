/*
 * why_cause.c: that what the library answers of a node is true (RULES, Why a
 * node has its label). Other nodes' rounds are asked of the library, and all
 * else is counted here, in the labels: nothing rests on the reference.
 */
#include "why.h"

#include "cabinet.h"
#include "check.h"

static int is_unsafe(uint32_t x)
{
    return labels[x] == HCUBE_ORDINARY || labels[x] == HCUBE_STRONG;
}

static int works(uint32_t x)
{
    return labels[x] < HCUBE_FAULTY;
}

static uint32_t round_of(uint32_t x)
{
    return HCUBE_VALUE(why_of(x));
}

/* It does not work, or was marked before this round, which none was before the
 * first. */
static int is_bad(uint32_t x, uint32_t round)
{
    return !works(x) || (round > 1 && is_unsafe(x) && round_of(x) < round);
}

/* ---- what is due */

static unsigned count_near(uint32_t n, uint32_t x, int (*counts)(uint32_t))
{
    unsigned count = 0;
    for (uint32_t i = 0; i < n; i++)
        count += counts(x ^ 1u << i) != 0;
    return count;
}

static int is_out_of_work(uint32_t x)
{
    return !works(x);
}

static int is_not_safe(uint32_t x)
{
    return labels[x] != HCUBE_SAFE;
}

static uint64_t due_of_safe(uint32_t n, uint32_t x)
{
    return ((uint64_t)count_near(n, x, is_out_of_work) << 32) +
           ((uint64_t)count_near(n, x, is_not_safe) << 40);
}

/* By two that do not work in round 1, or else by as many as the rule says that
 * do not work or were marked before. With fewer no round marks it: no answer is
 * due. */
static uint64_t due_of_unsafe(uint32_t n, uint32_t rule, uint32_t x)
{
    int by_faulty = count_near(n, x, is_out_of_work) >= 2;
    uint32_t round = by_faulty ? 1 : round_of(x);
    unsigned cause = by_faulty ? HCUBE_CAUSE_FAULTY : HCUBE_CAUSE_MARKED;
    unsigned count = by_faulty ? 2 : rule, found = 0;
    uint64_t due = ((uint64_t)cause << 56) + 65536u * labels[x] + round;
    for (uint32_t i = 0; i < n && found < count; i++)
        if (is_bad(x ^ 1u << i, round))
            due += (uint64_t)i << (32 + 8 * found++);
    return found == count ? due : UINT64_MAX;
}

/* ---- and what is answered */

/* It does not meet the rule a round earlier. */
static int is_first(uint32_t n, uint32_t rule, uint32_t x)
{
    uint32_t round = round_of(x);
    unsigned bad = 0;
    for (uint32_t i = 0; i < n && round > 1; i++)
        bad += is_bad(x ^ 1u << i, round - 1);
    return round >= 1 && bad < rule;
}

void check_true(uint32_t n, uint32_t rule, uint32_t x)
{
    uint64_t answer = why_of(x), due = (uint64_t)labels[x] << 16;
    if (labels[x] == HCUBE_SAFE)
        due = due_of_safe(n, x);
    else if (is_unsafe(x))
        due = due_of_unsafe(n, rule, x);
    if (answer != due)
        show_why(x);
    expect(answer == due, "n = %u by %u, node %u: %016llx is due, not %016llx",
           n, rule, x, (unsigned long long)due, (unsigned long long)answer);
    if (is_unsafe(x))
        expect(is_first(n, rule, x),
               "n = %u by %u, node %u: not the first round", n, rule, x);
}

/* ---- followed down */

/* The neighbour that a node's cause names first or last. */
static uint32_t named(uint32_t rule, uint32_t x, int is_last)
{
    uint64_t answer = why_of(x);
    if (!is_last)
        return x ^ 1u << HCUBE_WHY_FIRST(answer) % 12;
    if (HCUBE_WHY_CAUSE(answer) == HCUBE_CAUSE_MARKED &&
        rule == HCUBE_RULE_CHIU_WU)
        return x ^ 1u << HCUBE_WHY_THIRD(answer) % 12;
    return x ^ 1u << HCUBE_WHY_SECOND(answer) % 12;
}

/* From an unsafe node the causes lead to one that does not work, in at most as
 * many steps as its round. */
void check_followed(uint32_t n, uint32_t rule, uint32_t x)
{
    if (!is_unsafe(x))
        return;
    for (int is_last = 0; is_last < 2; is_last++) {
        uint32_t y = x, steps = 0;
        for (; y < 1u << n && is_unsafe(y) && steps < round_of(x); steps++)
            y = named(rule, y, is_last);
        expect(y < 1u << n && !works(y),
               "n = %u by %u, node %u of round %u leads to %u", n, rule, x,
               round_of(x), y);
    }
}
