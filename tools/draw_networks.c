/*
 * draw_networks.c: the walks of a listing, by virtual networks instead. For tools/draw.
 *
 *   draw_networks NETWORKS   on standard input, a file, a listing with the pairs k k of
 *                            all nodes; it is printed again, but the other pairs are
 *                            walked by hcube_walk_networks, and behind the nodes of such
 *                            a walk stands `by` and the network of each hop
 */
#include <inttypes.h>
#include <stdio.h>
#include <stdlib.h>
#include <string.h>

#include "hcube.h"

static uint32_t n, networks;
static uint8_t faults[HCUBE_FAULT_BYTES_MAX], none[HCUBE_FAULT_BYTES_MAX];
static uint8_t labels[HCUBE_LABEL_BYTES_MAX], hops[HCUBE_HOPS_BYTES_MAX];
static char line[1000];

static int next_pair(uint32_t *s, uint32_t *d)
{
    if (!fgets(line, sizeof line, stdin))
        return 0;
    if (sscanf(line, "%" SCNu32 " %" SCNu32, s, d) == 2)
        return 1;
    fprintf(stderr, "draw: not the line of a pair: %s", line);
    exit(1);
}

static void print_walk(uint32_t s, uint32_t d)
{
    uint32_t answer = hcube_walk_networks(n, networks, 0, s, d, labels, HCUBE_LABEL_BYTES(n),
                                          hops, sizeof hops);
    uint32_t refusal = HCUBE_REFUSAL(answer), count = HCUBE_VALUE(answer), at = s;
    printf("%" PRIu32 " %" PRIu32, s, d);
    if (refusal != HCUBE_ACCEPTED) {
        printf(" refused %" PRIu32 "\n", refusal);
        return;
    }
    printf(" %s %" PRIu32 " %" PRIu32,
           HCUBE_KIND(answer) == HCUBE_WALK_DELIVERED ? "delivered" : "halted", count, s);
    for (uint32_t k = 0; k < count; k++)
        printf(" %" PRIu32, at ^= 1u << HCUBE_HOP_DIMENSION(hops[k]));
    printf(" by");
    for (uint32_t k = 0; k < count; k++)
        printf(" %u", (unsigned)HCUBE_HOP_NETWORK(hops[k]));
    printf("\n");
}

int main(int argc, char **argv)
{
    uint32_t s, d;
    if (argc != 2 || !fgets(line, sizeof line, stdin) || sscanf(line, "cube %" SCNu32, &n) != 1 || n < 1 || n > 12)
        return 2;
    networks = (uint32_t)atoi(argv[1]);
    while (next_pair(&s, &d))
        if (s == d && s < 1u << n && strstr(line, " refused 6"))
            faults[s / 8] |= (uint8_t)(1 << s % 8);
    size_t bytes = HCUBE_FAULT_BYTES(n);
    if (HCUBE_REFUSAL(hcube_label(n, HCUBE_RULE_CHIU_WU, 0, faults, bytes, none, bytes, none, bytes, labels,
                                  HCUBE_LABEL_BYTES(n))))
        return 2;
    rewind(stdin);
    if (!fgets(line, sizeof line, stdin))
        return 2;
    printf("%s", line);
    while (next_pair(&s, &d))
        if (s == d)
            printf("%s", line);
        else
            print_walk(s, d);
    return fflush(stdout) || ferror(stdout) ? 2 : 0;
}
