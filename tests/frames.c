/*
 * frames.c: no frame passes a node twice (RULES, No node twice), on the labels of a
 * cabinet and on any others. What is expected stands here once more and is not
 * asked of the reference; of a walk's row check_walk expects it. Frames that end
 * after more hops than a walk may have are grown in long_walks.c.
 */
#include "frames.h"

#include <string.h>

#include "cabinet.h"
#include "cases.h"
#include "check.h"
#include "groups.h"

/* What came up, by whether the destination is draining. */
static unsigned long came_up[2][FRAMES];

/* A frame that has not ended after so many hops, twice as many as there are
 * nodes, is given up. */
#define GIVEN_UP(n) (2u << (n))

/* How many hops it makes, the answer where it stands then, and whether it came to
 * a node again. */
static uint32_t forward(uint32_t n, uint32_t s, uint32_t d, const uint8_t *half,
                        uint32_t *answer, int *again)
{
    static uint8_t passed[MOST_NODES];
    struct hop_question asked = fit_hop(n, s, d, half);
    uint32_t hops = 0;
    memset(passed, 0, (size_t)1 << n);
    *again = 0;
    for (;;) {
        *again |= passed[asked.c];
        passed[asked.c] = 1;
        *answer = ask_hop(asked);
        if (*answer >> 16 != HCUBE_HOP || hops == GIVEN_UP(n))
            return hops;
        asked.c ^= 1u << HCUBE_VALUE(*answer);
        hops++;
    }
}

/* The walk's answer where a frame ended so, after so many hops; no walk's where
 * the hop was refused. */
static uint32_t same_walk(uint32_t answer, uint32_t hops)
{
    switch (answer) {
    case HCUBE_DELIVER << 16: return (HCUBE_WALK_DELIVERED << 16) + hops;
    case HCUBE_HALTED << 16: return (HCUBE_WALK_HALTED << 16) + hops;
    default: return UINT32_MAX;
    }
}

enum frame check_frame(uint32_t n, uint32_t s, uint32_t d, const uint8_t *half)
{
    uint8_t row[ROW_BYTES];
    uint32_t last, hops, walk = walk_by(half, n, s, d, row);
    int again;
    enum frame how;
    hops = forward(n, s, d, half, &last, &again);
    how = hops == GIVEN_UP(n) ? ROUND : hops > n + 4 ? LONGER : WALKED;
    expect(how == ROUND || !again, "n = %u: %u to %u passes a node twice", n, s,
           d);
    expect(walk == (how == WALKED ? same_walk(last, hops) : REFUSED(8)),
           "n = %u: %u to %u has %u hops and then %08x, the walk is %08x", n, s,
           d, hops, last, walk);
    return how;
}

/* Between that many random pairs; those that no walk accepts are left out. */
static void some_frames(uint32_t n, unsigned count, int of_cabinet)
{
    while (count--) {
        uint32_t s = random_below(1u << n);
        uint32_t d = count % 2 ? random_below(1u << n) : some_draining(n);
        enum frame how;
        if (labels[s] >= HCUBE_FAULTY || labels[d] == HCUBE_FAULTY)
            continue;
        how = check_frame(n, s, d, labels);
        expect(how == WALKED || !of_cabinet,
               "n = %u: %u to %u by labels of a cabinet", n, s, d);
        came_up[labels[d] == HCUBE_DRAINING][how]++;
    }
}

/* Labels that call node 1 safe, two of whose neighbours are faulty. */
static const uint8_t to_and_fro[8] = {0, 0, 0, 3, 0, 3, 0, 0};

void check_frames(void)
{
    begin_group("frames by the hop question alone");
    expect(check_frame(3, 1, 7, to_and_fro) == ROUND, "1 to 7 does not go round");
    for (unsigned k = 0; k < 2400; k++) {
        uint32_t n = 1 + k % 12;
        random_cabinet(n, random_density(n));
        label_cabinet(n, 2 + k / 12 % 2);
        some_frames(n, 8, 1);
        mixed_labels(n);
        some_frames(n, 8, 0);
    }
    for (unsigned drains = 0; drains < 2; drains++) {
        expect(came_up[drains][WALKED] >= 20, "%lu frames end, drains %u",
               came_up[drains][WALKED], drains);
        expect(came_up[drains][ROUND] >= 20, "%lu frames go round, drains %u",
               came_up[drains][ROUND], drains);
    }
    end_group();
}
