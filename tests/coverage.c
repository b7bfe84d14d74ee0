/*
 * coverage.c: what came up in all groups of tests/library.c, by seen.h: every refusal,
 * ending, scan, cause and block, often enough.
 */
#include <stdio.h>

#include "cases.h"
#include "check.h"
#include "groups.h"

#define LEAST 20ul /* times that each must come up */

/* A number that there is no room to count did not come up. */
static void came_up(const char *what, const unsigned long *counts, size_t room,
                    unsigned number)
{
    unsigned long count = number < room ? counts[number] : 0;
    printf(" %u:%lu", number, count);
    expect(count >= LEAST, "%s %u came up %lu times", what, number, count);
}

/* The question was accepted, and refused with each of its refusals, for either
 * job; 19 is for what is no job. */
static void refusals_came_up(unsigned question, unsigned whose)
{
    const char *name = questions[question].name;
    const unsigned *refusal = questions[question].refusals;
    printf("  refusals of %s, job %u:", name, whose);
    do
        if (*refusal != 19)
            came_up(name, seen.refusal[question][whose],
                    COUNT(seen.refusal[question][whose]), *refusal);
    while (*refusal++);
    printf("\n");
}

static void counts_came_up(const char *what, const unsigned long *counts,
                           size_t room, unsigned first, unsigned last)
{
    printf("  %s:", what);
    for (unsigned k = first; k <= last; k++)
        came_up(what, counts, room, k);
    printf("\n");
}
#define CAME_UP(what, counts, first, last)                                     \
    counts_came_up(what, seen.counts, COUNT(seen.counts), first, last)

void check_refusals_seen(void)
{
    begin_group("coverage of refusals");
    for (unsigned question = 0; question < QUESTIONS; question++)
        for (unsigned job = 0; job < (question < NOTICE ? NO_JOB : 1); job++)
            refusals_came_up(question, job);
    CAME_UP("refusal of label, no job", refusal[LABEL][NO_JOB], 18, 19);
    CAME_UP("refusal of hop, no job", refusal[HOP][NO_JOB], 19, 19);
    CAME_UP("refusal of walk, no job", refusal[WALK][NO_JOB], 19, 19);
    CAME_UP("refusal of why a label, no job", refusal[WHY_NODE][NO_JOB], 18,
            19);
    CAME_UP("refusal of why a hop, no job", refusal[WHY_HOP][NO_JOB], 19, 19);
    CAME_UP("refusal of hop by networks, no job", refusal[NET_HOP][NO_JOB], 19, 19);
    CAME_UP("refusal of walk by networks, no job", refusal[NET_WALK][NO_JOB], 19,
            19);
    end_group();
}

void check_why_seen(void)
{
    begin_group("coverage of causes, rounds and reasons of hops");
    CAME_UP("why label", why_label, 0, LAST_LABEL);
    CAME_UP("cause by rule 2", cause[2], 0, 2);
    CAME_UP("cause by rule 3", cause[3], 0, 2);
    CAME_UP("dimension named first", named[0], 0, 9);
    CAME_UP("dimension named second", named[1], 1, 11);
    CAME_UP("dimension named third", named[2], 2, 11);
    CAME_UP("round, the last two being of ten and of a hundred", round, 1, 11);
    CAME_UP("not safe beside a safe node", beside_safe[0], 0, 2);
    CAME_UP("not safe beside a safe node, one faulty", beside_safe[1], 1, 2);
    CAME_UP("reason of a hop, scan", why_scan, 0, 5);
    end_group();
}

void check_endings_seen(void)
{
    begin_group("coverage of endings, scans and exchanges");
    CAME_UP("kind of hop", hop_kind, 0, 2);
    CAME_UP("hop at a working node, label", hop_at, 0, 2);
    CAME_UP("hop at a draining node, label", hop_at, 4, 4);
    CAME_UP("scan", scan, 0, NO_SCAN);
    CAME_UP("dimension crossed", dimension, 0, 11);
    CAME_UP("kind of walk", walk_kind, 0, 1);
    CAME_UP("hops of a walk", walk_hops, 0, 16);
    CAME_UP("hops of a walk to a draining node", drained_hops, 1, 16);
    CAME_UP("walk of n + 4 hops, n", longest, 4, 12);
    CAME_UP("rule", rule, 2, 3);
    CAME_UP("exchanges", exchanges, 1, 10);
    CAME_UP("label", label, 0, LAST_LABEL);
    CAME_UP("tables of a node", tables, 0, 7);
    for (unsigned job = 0; job < NO_JOB; job++) {
        CAME_UP("labelled n", cube[LABEL][job], 1, 12);
        CAME_UP("hop at n", cube[HOP][job], 1, 12);
        CAME_UP("walk at n", cube[WALK][job], 1, 12);
        CAME_UP("why a label at n", cube[WHY_NODE][job], 1, 12);
        CAME_UP("why a hop at n", cube[WHY_HOP][job], 1, 12);
    }
    CAME_UP("notice of n", cube[NOTICE][0], 1, 12);
    CAME_UP("dimension n", cube[DIMENSION][0], 1, 12);
    CAME_UP("written n", cube[WRITE][0], 1, 12);
    CAME_UP("groups of a count written", groups[0], 1, 2);
    CAME_UP("groups of a first address written", groups[1], 1, 2);
    CAME_UP("groups of a later address written", groups[2], 1, 2);
    CAME_UP("list of n", cube[LIST][0], 1, 12);
    CAME_UP("list written n", cube[WRITE_LIST][0], 1, 12);
    for (unsigned written = 0; written < 2; written++) {
        CAME_UP("digits of a number alone", digits[written][0], 1, 4);
        CAME_UP("digits of a first number", digits[written][1], 1, 4);
        CAME_UP("digits of a second number", digits[written][2], 1, 4);
    }
    CAME_UP("repaired n", cube[REPAIR][0], 1, 12);
    CAME_UP("namers of a node that was added", namers, 1, 12);
    CAME_UP("dimension to the lowest of them", across, 0, 11);
    CAME_UP("named by faulty nodes alone, faulty itself", unheard, 0, 1);
    end_group();
}

void check_networks_seen(void)
{
    begin_group("coverage of virtual networks");
    CAME_UP("kind of hop by networks", net_kind, 0, 2);
    CAME_UP("turn of a hop", net_turn, 0, 3);
    CAME_UP("turn of a hop to a draining node", net_home, 0, 3);
    CAME_UP("block of the forward call", net_block[0], 1, 6);
    CAME_UP("block of the spare call", net_block[1], 1, 6);
    CAME_UP("forward call ended at block", net_ended[0], 4, 4);
    CAME_UP("forward call ended at block", net_ended[0], 6, 6);
    CAME_UP("spare call ended at block", net_ended[1], 4, 4);
    CAME_UP("spare call ended at block", net_ended[1], 6, 6);
    CAME_UP("network of a hop", net_network, 0, 4);
    CAME_UP("dimension of a hop by networks", net_dimension, 0, 11);
    CAME_UP("hop without a network, of so many", net_lacking[0], 1, 5);
    CAME_UP("walk without a network, of so many", net_lacking[1], 1, 5);
    CAME_UP("kind of walk by networks", net_walk_kind, 0, 1);
    CAME_UP("hops of a walk by networks", net_walk_hops[0], 0, 24);
    CAME_UP("hops of one that halted", net_walk_hops[1], 0, 10);
    CAME_UP("last network of a walk", net_walk_last, 0, 4);
    for (unsigned job = 0; job < NO_JOB; job++) {
        CAME_UP("hop by networks at n", cube[NET_HOP][job], 1, 12);
        CAME_UP("walk by networks at n", cube[NET_WALK][job], 1, 12);
    }
    end_group();
}
