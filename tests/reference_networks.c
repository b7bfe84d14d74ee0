/*
 * reference_networks.c: hop and walk by virtual networks (RULES, Virtual networks), as
 * figure 4 of Chiu and Wu has it: ROUTE_C hands FORWARD two sets of dimensions, which
 * goes from one block to the next.
 */
#include "reference.h"

#include <stdlib.h>

enum { SAFE, ORDINARY, STRONG, FAULTY, DRAINING };

struct set {
    unsigned count;
    uint32_t of[12];
};

/* A message at node c, with what the algorithm keeps of it. */
struct message {
    uint32_t n, c, d, vn, down;
    const uint8_t *half;
    unsigned l;
};

static uint32_t refused(unsigned number)
{
    return (uint32_t)number << 24;
}

/* The figure's d^u, d^d, s^u and s^d: the dimensions in which c and d differ, or not,
 * and across which a hop at c goes up, or down. */
static struct set dimensions_of(const struct message *m, int differ, uint32_t down)
{
    struct set set = {0, {0}};
    for (uint32_t i = 0; i < m->n; i++)
        if (((m->c ^ m->d) >> i & 1) == (uint32_t)differ && (m->c >> i & 1) == down)
            set.of[set.count++] = i;
    return set;
}

/* The lists of the figure: the label stands in FAULT, in S_UNSAFE, in UNSAFE. */
static int in_fault(uint8_t label)
{
    return label == FAULTY || label == DRAINING;
}

static int in_fault_or_strong(uint8_t label)
{
    return in_fault(label) || label == STRONG;
}

static int in_any_list(uint8_t label)
{
    return in_fault_or_strong(label) || label == ORDINARY;
}

/* Whether the set has a dimension whose neighbour is not listed; the lowest is kept. */
static int exists(const struct message *m, const struct set *set,
                  int (*is_listed)(uint8_t label), struct ref_routed *to)
{
    for (unsigned k = 0; k < set->count; k++)
        if (!is_listed(m->half[m->c ^ 1u << set->of[k]])) {
            to->dimension = set->of[k];
            return 1;
        }
    return 0;
}

static int route(struct message *m, unsigned block, struct ref_routed *to)
{
    to->block = block;
    to->network = m->vn;
    return 1;
}

static int exit_at(unsigned block, struct ref_routed *to)
{
    to->ended[to->call - 1] = block;
    return 0;
}

/* Whether the message was forwarded. */
static int forward(struct message *m, struct set set1, struct set set2,
                   struct ref_routed *to)
{
    int may_be_strong = m->half[m->c] == STRONG || m->l <= 2;
    if (exists(m, &set1, in_any_list, to))
        return route(m, 1, to);
    if (exists(m, &set2, in_any_list, to)) {
        if (m->down)
            m->vn++;
        return route(m, 2, to);
    }
    if (exists(m, &set1, in_fault_or_strong, to))
        return route(m, 3, to);
    if (exists(m, &set2, in_fault_or_strong, to)) {
        if (m->down) {
            if (m->vn == 0 || m->l <= 2)
                m->vn++;
            else
                return exit_at(4, to);
        }
        return route(m, 4, to);
    }
    if (exists(m, &set1, in_fault, to) && may_be_strong)
        return route(m, 5, to);
    if (exists(m, &set2, in_fault, to) && may_be_strong) {
        if (m->down) {
            if (m->l <= 2)
                m->vn++;
            else
                return exit_at(6, to);
        }
        return route(m, 6, to);
    }
    return 0;
}

/* The hop to a draining destination next door, before the figure's own. */
static int forward_home(struct message *m, struct ref_routed *to)
{
    to->dimension = 0;
    if (m->l != 1 || m->half[m->d] != DRAINING)
        return 0;
    while ((m->c ^ m->d) >> to->dimension != 1)
        to->dimension++;
    if (m->down == 1 && m->d > m->c)
        m->vn++;
    return route(m, 0, to);
}

int ref_route(uint32_t n, uint32_t c, uint32_t d, uint32_t network, uint32_t down,
              const uint8_t *half, struct ref_routed *to)
{
    struct message m = {n, c, d, network, down, half, ref_distance(n, c, d)};
    uint32_t up = 1 - down;
    to->call = to->ended[0] = to->ended[1] = 0;
    if (forward_home(&m, to))
        return 1;
    to->call = 1;
    if (forward(&m, dimensions_of(&m, 1, down), dimensions_of(&m, 1, up), to))
        return 1;
    to->call = 2;
    return forward(&m, dimensions_of(&m, 0, down), dimensions_of(&m, 0, up), to);
}

uint32_t ref_hop_networks(uint32_t n, uint32_t networks, uint32_t job, uint32_t c,
                          uint32_t d, uint32_t network, uint32_t down,
                          const uint8_t *labels, size_t labels_len)
{
    struct ref_routed to;
    if (n < 1 || n > 12)
        return refused(1);
    if (networks < 1 || networks > 5 || network >= networks || down > 1)
        return refused(15);
    if (job > 1)
        return refused(19);
    if (labels_len != ref_label_bytes(n))
        return refused(2);
    if (c >= 1u << n || d >= 1u << n)
        return refused(5);
    labels += job * labels_len / 2;
    for (uint32_t i = 0; i < n; i++)
        if (labels[c] > LAST_LABEL || labels[c ^ 1u << i] > LAST_LABEL)
            return refused(4);
    if (labels[c] == FAULTY || (labels[c] == DRAINING && c != d))
        return refused(6);
    if (c == d)
        return 0;
    if (!ref_route(n, c, d, network, down, labels, &to))
        return 2u << 16;
    if (to.network >= networks)
        return refused(16);
    return (1u << 16) + to.network * 16 + to.dimension;
}

/* By labels that are good: into the list, if it is not refused. */
static uint32_t walk(uint32_t n, uint32_t networks, uint32_t s, uint32_t d,
                     const uint8_t *half, uint8_t *hops)
{
    uint8_t list[2 * 12 * 5];
    struct ref_routed to = {0};
    uint32_t count = 0, c = s, down = 0, halted = 0;
    while (c != d) {
        halted = !ref_route(n, c, d, to.network, down, half, &to);
        if (halted)
            break;
        if (to.network >= networks)
            return refused(16);
        if (count == 2 * n * networks)
            abort(); /* it cannot be so long */
        list[count++] = (uint8_t)(to.network * 16 + to.dimension);
        down = c >> to.dimension & 1;
        c ^= 1u << to.dimension;
    }
    for (uint32_t k = 0; k < count; k++)
        hops[k] = list[k];
    return (halted << 16) + count;
}

uint32_t ref_walk_networks(uint32_t n, uint32_t networks, uint32_t job, uint32_t s,
                           uint32_t d, const uint8_t *labels, size_t labels_len,
                           uint8_t *hops, size_t hops_len)
{
    if (n < 1 || n > 12)
        return refused(1);
    if (networks < 1 || networks > 5)
        return refused(15);
    if (job > 1)
        return refused(19);
    if (labels_len != ref_label_bytes(n))
        return refused(2);
    if (hops_len < 2 * n * networks)
        return refused(13);
    if (s >= 1u << n || d >= 1u << n)
        return refused(5);
    labels += job * labels_len / 2;
    for (uint32_t k = 0; k < 1u << n; k++)
        if (labels[k] > LAST_LABEL)
            return refused(4);
    if (in_fault(labels[s]))
        return refused(6);
    if (labels[d] == FAULTY)
        return refused(7);
    return walk(n, networks, s, d, labels, hops);
}
