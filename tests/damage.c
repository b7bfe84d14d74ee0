/* damage.c: numbers, lengths and bytes of which some are refused. */
#include "damage.h"

#include "cases.h"
#include "reference.h"

uint32_t any_job(void)
{
    static const uint32_t bad[] = {2, 3, 255, 256, 257, 65536, 65537,
                                   0x80000000u, 0x80000001u, 0xffffffffu};
    return random_below(12) ? random_below(2) : bad[random_below(COUNT(bad))];
}

uint32_t any_node(uint32_t n)
{
    uint32_t nodes = 1u << (n - 1) % 12 << 1, k = random_below(nodes);
    switch (random_below(20)) {
    case 0: return nodes;
    case 1: return nodes + k;
    case 2: return 65536 + k;
    case 3: return 0xffffffffu;
    case 4: return 0x80000000u + k;
    case 5: return nodes - 1;
    default: return k;
    }
}

size_t any_length(size_t exact)
{
    switch (random_below(50)) {
    case 0: return 0;
    case 1: return 1;
    case 2: return exact - 1;
    case 3: return exact + 1;
    case 4: return exact * 2;
    case 5: return exact + 65536;
    case 6: return exact / 2;
    default: return exact;
    }
}

uint8_t no_label(void)
{
    return (uint8_t)(LAST_LABEL + 1 +
                     (random_below(4) ? random_below(255 - LAST_LABEL) : 0));
}
