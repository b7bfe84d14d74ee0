/*
 * networks_walks.c: walks by virtual networks (RULES, Virtual networks): each is one hop
 * after the other; a board with more networks walks the same; and by labels of a cabinet
 * that has a safe node five networks deliver. Nothing of it is asked of the reference.
 */
#include <string.h>

#include "bounds.h"
#include "cabinet.h"
#include "cases.h"
#include "check.h"
#include "groups.h"

/* What came up. */
static unsigned long same_on_more, by_label[2][3];

/* A walk as its caller sees it. */
struct walked {
    uint32_t answer;
    uint8_t hops[HCUBE_HOPS_BYTES_MAX];
};

static void walk_on(uint32_t n, uint32_t networks, uint32_t s, uint32_t d,
                    struct walked *to)
{
    random_bytes(to->hops, sizeof to->hops);
    to->answer = check_net_walk(fit_net_walk(n, networks, s, d, labels, to->hops));
}

/* The hops that are asked for one by one are those of the walk, and it ends as the last
 * of them does: delivered, halted or refused with 16. */
static void step_by_step(uint32_t n, uint32_t networks, uint32_t d,
                         struct net_hop_question at, const struct walked *walked)
{
    uint32_t count = 0, answer;
    int same = 1, refused = HCUBE_REFUSAL(walked->answer) != 0;
    at.networks = networks;
    for (;;) {
        answer = ask_net_hop(at);
        if (answer >> 16 != HCUBE_HOP || count == 2 * n * networks)
            break;
        same &= refused || HCUBE_VALUE(answer) == walked->hops[count];
        at.network = HCUBE_HOP_NETWORK(answer);
        at.down = at.c >> HCUBE_HOP_DIMENSION(answer) & 1;
        at.c ^= 1u << HCUBE_HOP_DIMENSION(answer);
        count++;
    }
    if (refused)
        same &= answer == walked->answer;
    else if (HCUBE_KIND(walked->answer) == HCUBE_WALK_DELIVERED)
        same &= answer == HCUBE_DELIVER << 16 && at.c == d;
    else
        same &= answer == HCUBE_HALTED << 16;
    expect(same && (refused || HCUBE_VALUE(walked->answer) == count),
           "n = %u, %u networks, to %u: %u hops and then %08x, the walk is %08x", n,
           networks, d, count, answer, walked->answer);
}

static void steps_of(uint32_t n, uint32_t s, uint32_t d)
{
    struct walked before, now;
    before.answer = REFUSED(16);
    for (uint32_t networks = 1; networks <= HCUBE_NETWORKS_MAX; networks++) {
        walk_on(n, networks, s, d, &now);
        if (labels[s] >= HCUBE_FAULTY || labels[d] == HCUBE_FAULTY)
            return;
        step_by_step(n, networks, d, fit_net_hop(n, s, d, labels), &now);
        if (HCUBE_REFUSAL(before.answer) == 0) {
            expect(now.answer == before.answer &&
                       !memcmp(now.hops, before.hops, HCUBE_VALUE(now.answer)),
                   "n = %u, %u to %u: another walk by %u networks", n, s, d,
                   networks);
            same_on_more++;
        }
        before = now;
    }
}

void check_net_steps(void)
{
    begin_group("walks by networks, hop by hop, and on larger boards");
    for (unsigned k = 0; k < 2400; k++) {
        uint32_t n = 1 + k % 12;
        if (k % 2)
            mixed_labels(n);
        else
            random_labels(n, HCUBE_ORDINARY + random_below(4), labels);
        for (unsigned pair = 0; pair < 6; pair++)
            steps_of(n, random_below(1u << n), random_below(1u << n));
        steps_of(n, random_below(1u << n), some_draining(n));
    }
    expect(same_on_more >= 20, "%lu larger boards", same_on_more);
    end_group();
}

/* ---- five networks deliver, where a node is safe */

static void arrives(uint32_t n, uint32_t s, uint32_t d)
{
    struct walked walked;
    uint32_t distance = ref_distance(n, s, d);
    walk_on(n, HCUBE_NETWORKS_MAX, s, d, &walked);
    if (labels[s] >= HCUBE_FAULTY || labels[d] == HCUBE_FAULTY)
        return;
    expect(walked.answer >= distance && walked.answer <= distance + 2u * labels[s],
           "n = %u, %u to %u, some node safe: %08x", n, s, d, walked.answer);
    by_label[walked.answer > distance][labels[s]]++;
}

static void arrivals_of(uint32_t n)
{
    for (uint32_t k = 0; n <= 4 && k < 1u << 2 * n; k++)
        arrives(n, k >> n, k & ((1u << n) - 1));
    for (unsigned k = 0; n > 4 && k < 24; k++) {
        arrives(n, random_below(1u << n), random_below(1u << n));
        arrives(n, random_below(1u << n), some_draining(n));
    }
}

void check_net_arrivals(void)
{
    begin_group("walks by five networks, where a node is safe");
    for (unsigned k = 0; k < 2400; k++) {
        uint32_t n = 1 + k % 12;
        random_cabinet(n, k % 24 < 12 ? random_density(n) : 1000 / n);
        label_cabinet(n, 2 + k / 24 % 2);
        if (has_safe_node(n))
            arrivals_of(n);
    }
    for (unsigned k = 0; k < 3; k++)
        expect(by_label[0][k] >= 20 && (k == 0 || by_label[1][k] >= 20),
               "from label %u: %lu, and %lu with more hops", k, by_label[0][k],
               by_label[1][k]);
    end_group();
}
