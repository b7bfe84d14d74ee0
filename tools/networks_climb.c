/*
 * networks_climb.c: looks for fault tables with a safe node whose walks need many virtual
 * networks: from random tables, step by step, to others whose walks need more. Where no
 * node is safe there is nothing to look for: there five are too few from n = 3 on.
 *
 *   networks_climb SEED STEPS N...   N: 3 to 12
 *
 * Prints for each N how many networks the walks need that get farthest, of so many tables,
 * with the first such table and its first such walk. A seed gives the same everywhere, as
 * in networks.c, and status 1 is the same.
 */
#include "networks.h"

#define IDLE 300 /* steps without a rise, after which another table is begun with */

/* How far walks of a table get, as a pair of network and direction, how many get so far,
 * and one of these. */
struct score {
    uint32_t pair, walks, s, d;
};

/* The destinations looked at: all nodes, or those of a random subcube. */
static uint32_t goals[SMALL], goals_count;

static int above(struct score a, struct score b)
{
    return a.pair != b.pair ? a.pair > b.pair : a.walks > b.walks;
}

static void set_goals(void)
{
    uint32_t all = nodes < SMALL ? nodes : SMALL, taken = 0;
    goals[0] = random_below(nodes);
    for (goals_count = 1; goals_count < all;) {
        uint32_t bit = 1u << random_below(n);
        if (taken & bit)
            continue;
        taken |= bit;
        for (uint32_t j = 0; j < goals_count; j++)
            goals[goals_count + j] = goals[j] ^ bit;
        goals_count *= 2;
    }
}

static void score_walk(struct score *score, uint32_t s, uint32_t d)
{
    uint32_t pair;
    if (s == d || is_faulty(d))
        return;
    walk(s, d, &pair);
    if (pair > score->pair)
        *score = (struct score){pair, 0, s, d};
    score->walks += pair == score->pair;
}

/* From unsafe nodes alone: by the paper three networks do for walks from safe ones. */
static struct score score_table(void)
{
    struct score score = {0, 0, 0, 0};
    for (uint32_t i = 0; i < working; i++)
        for (uint32_t j = 0; labels[order[i]] != HCUBE_SAFE && j < goals_count; j++)
            score_walk(&score, order[i], goals[j]);
    return score;
}

/* A node: mostly one that is two hops or none from a faulty one. */
static uint32_t random_place(uint32_t faulty)
{
    uint32_t k = random_below(nodes);
    if (!faulty || random_below(4) == 0)
        return k;
    k = order[working + random_below(faulty)];
    k ^= 1u << random_below(n);
    return k ^ 1u << random_below(n);
}

/* Adds a faulty node, removes one, or both. */
static void change_table(void)
{
    uint32_t faulty = nodes - working, k = random_place(faulty), way = random_below(3);
    if (faulty && way != 0)
        flip(order[working + random_below(faulty)]);
    if (way != 1 && !is_faulty(k))
        flip(k);
    label();
}

/* A table whose faulty nodes are all among the destinations. */
static struct score begin(void)
{
    do {
        set_goals();
        random_table(goals, goals_count, 1 + random_below(goals_count / 2));
    } while (!some_safe);
    return score_table();
}

/* One step on from a table with this score: to another with a safe node whose score is
 * not below it, or to the same. Its score. */
static struct score step(struct score now)
{
    static uint8_t before[sizeof faults];
    struct score next;
    memcpy(before, faults, sizeof faults);
    change_table();
    if (some_safe && (next = score_table(), !above(now, next)))
        return next;
    memcpy(faults, before, sizeof faults);
    label();
    return now;
}

/* The first table of so many whose walks get as far as those of any of them; it is left in
 * `faults`. */
static struct score climb(uint32_t steps)
{
    static uint8_t best_faults[sizeof faults];
    struct score now = {0, 0, 0, 0}, best = now, before;
    for (uint32_t idle = IDLE; steps--; idle++) {
        before = now;
        now = idle < IDLE ? step(now) : begin();
        if (idle >= IDLE || above(now, before))
            idle = 0;
        if (now.pair > best.pair || best.walks == 0) {
            best = now;
            memcpy(best_faults, faults, sizeof faults);
        }
    }
    memcpy(faults, best_faults, sizeof faults);
    return best;
}

static void climb_all(uint64_t seed, uint32_t steps, int count, char **words)
{
    printf("**Some node is safe**, the most networks that a walk was found to need:\n\n");
    printf("| n | networks | from | to | faulty |\n|---|---|---|---|---|\n");
    for (int i = 0; i < count; i++) {
        struct score best;
        set_dimension((uint32_t)atoi(words[i]), seed);
        best = climb(steps);
        printf("| %" PRIu32 " | %" PRIu32 " | %" PRIu32 " | %" PRIu32 " |", n, best.pair / 2 + 1,
               best.s, best.d);
        print_faulty(stdout);
        printf(" |\n");
        fflush(stdout);
    }
}

int main(int count, char **words)
{
    climb_all(strtoull(words[1], NULL, 10), (uint32_t)strtoul(words[2], NULL, 10), count - 3,
              words + 3);
    return written();
}
