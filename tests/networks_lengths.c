/*
 * networks_lengths.c: hop and walk by virtual networks on buffers of every kind of
 * length, and with lengths of which the low 32 bits alone are right, or too few.
 */
#define _DEFAULT_SOURCE /* MAP_ANONYMOUS, MAP_NORESERVE */
#include <string.h>
#include <sys/mman.h>

#include "cases.h"
#include "check.h"
#include "groups.h"
#include "lent.h"

static uint8_t labels[MOST_LENT], hops[MOST_LENT];

/* A label buffer that is not the right one, of each length to 40 and around that. */
static void label_lengths(uint32_t n, uint32_t networks)
{
    struct net_hop_question hop = fit_net_hop(n, 0, 1, labels);
    struct net_walk_question walk = fit_net_walk(n, networks, 0, 1, labels, hops);
    size_t exact = hop.labels_len;
    const size_t far[] = {exact / 2, exact - 1, exact + 1, 2 * exact, exact + 256,
                          exact + 65536};
    hop.labels = walk.labels = labels;
    for (size_t k = 0; k < 40 + COUNT(far); k++) {
        hop.labels_len = walk.labels_len = k < 40 ? k : far[k - 40];
        if (hop.labels_len == exact)
            continue;
        walk.hops_len = random_below(2) ? 0 : 2 * n * networks;
        expect(check_net_hop(hop) == REFUSED(2), "hop n=%u, labels %u", n,
               (unsigned)hop.labels_len);
        expect(check_net_walk(walk) == REFUSED(2), "walk n=%u, labels %u", n,
               (unsigned)walk.labels_len);
    }
}

/* Each length of the list from 0 on: what is too short for the most hops is refused,
 * however few the walk has; what is longer is not. */
static void list_lengths(uint32_t n, uint32_t networks)
{
    uint32_t d = random_below(1u << n);
    struct net_walk_question asked = fit_net_walk(n, networks, 0, d, labels, hops);
    uint32_t count = ref_distance(n, 0, d);
    size_t exact = asked.hops_len;
    const size_t far[] = {2 * exact, exact + 256, exact + 65536, MOST_LENT};
    for (size_t k = 0; k < 140 + COUNT(far); k++) {
        asked.hops_len = k < 140 ? k : far[k - 140];
        expect(check_net_walk(asked) == (asked.hops_len < exact ? REFUSED(13) : count),
               "walk n=%u, %u networks, a list of %u", n, networks,
               (unsigned)asked.hops_len);
    }
}

/* n = 3, from 0 to 7. */
static void lengths_with(uint8_t *big, size_t beyond)
{
    uint8_t small[HCUBE_HOPS_BYTES_MAX];
    struct net_hop_question hop = fit_net_hop(3, 0, 7, labels);
    struct net_walk_question walk = fit_net_walk(3, 5, 0, 7, labels, small);
    hop.labels = walk.labels = big;
    hop.labels_len += beyond;
    walk.labels_len += beyond;
    expect(ask_net_hop(hop) == REFUSED(2), "hop, labels of 2^32 + 16 bytes");
    expect(ask_net_walk(walk) == REFUSED(2), "walk, labels of 2^32 + 16 bytes");
    walk = fit_net_walk(3, 5, 0, 7, labels, big);
    for (size_t more = 0; more < 2 * walk.hops_len; more++) {
        struct net_walk_question asked = walk;
        asked.hops_len = beyond + more;
        expect(ask_net_walk(asked) == 3, "a list of 2^32 + %u bytes", (unsigned)more);
    }
    walk.hops_len = beyond / 2;
    expect(ask_net_walk(walk) == 3, "a list of 2^31 bytes");
    expect(!memcmp(big, "\x00\x01\x02", 3), "other hops");
    for (size_t k = 0; k < 4096; k++)
        expect((k < 3 || big[k] == 0) && big[beyond / 2 - 2048 + k] == 0 &&
                   big[beyond - 4096 + k] == 0 && big[beyond + k] == 0,
               "behind the hops: %u", (unsigned)k);
}

void check_net_lengths(void)
{
    size_t beyond = (size_t)1 << 32, len = beyond + 4096;
    uint8_t *big = mmap(NULL, len, PROT_READ | PROT_WRITE,
                        MAP_PRIVATE | MAP_ANONYMOUS | MAP_NORESERVE, -1, 0);
    begin_group("networks, lengths from 0 to far too long");
    random_bytes(hops, sizeof hops);
    for (uint32_t n = 1; n <= 12; n++)
        for (uint32_t networks = 1; networks <= HCUBE_NETWORKS_MAX; networks++) {
            label_lengths(n, networks);
            list_lengths(n, networks);
        }
    expect(big != MAP_FAILED, "no address space of 4 GiB");
    if (big != MAP_FAILED) {
        lengths_with(big, beyond);
        munmap(big, len);
    }
    end_group();
}
