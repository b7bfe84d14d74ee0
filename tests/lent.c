/* lent.c: buffers between closed pages and guard bytes. */
#define _DEFAULT_SOURCE /* MAP_ANONYMOUS */
#include "lent.h"

#include <stdio.h>
#include <stdlib.h>
#include <string.h>
#include <sys/mman.h>

#define PAGE 65536u /* at least the page of any machine */
#define GUARD 64u
#define ROOM ((MOST_LENT + 2 * GUARD + PAGE - 1) / PAGE * PAGE)

/* Which side a buffer stands at changes from call to call, in no short row. At the
 * low side it stands some bytes further in every second time, at any address that
 * its numbers may have. */
static uint32_t turn;

static uint8_t guard[GUARD];

static void protect(uint8_t *memory, size_t len, int how)
{
    if (mprotect(memory, len, how)) {
        perror("mprotect");
        exit(2);
    }
}

static void open_memory(struct lent *lent)
{
    uint8_t *all = mmap(NULL, ROOM + 2 * PAGE, PROT_NONE,
                        MAP_PRIVATE | MAP_ANONYMOUS, -1, 0);
    if (all == MAP_FAILED) {
        perror("mmap");
        exit(2);
    }
    lent->memory = all + PAGE;
    protect(lent->memory, ROOM, PROT_READ | PROT_WRITE);
    for (size_t k = 0; k < GUARD; k++)
        guard[k] = (uint8_t)(0xa5 ^ k * 29);
}

static uint8_t *guard_of(const struct lent *lent)
{
    return lent->high ? lent->bytes - GUARD : lent->bytes + lent->len;
}

/* Its bytes and its guard are put where they stand now. */
static void put_bytes(struct lent *lent, const void *content, size_t len)
{
    lent->len = len;
    memcpy(lent->bytes, content, len);
    memcpy(guard_of(lent), guard, GUARD);
}

static void lend_aligned(struct lent *lent, const void *content, size_t len,
                         uint32_t width)
{
    uint32_t place = ++turn * 2654435769u;
    if (!lent->memory)
        open_memory(lent);
    lent->high = place >> 31;
    lent->bytes = lent->high ? lent->memory + ROOM - len : lent->memory;
    if (!lent->high && place >> 30)
        lent->bytes += place % GUARD / width * width;
    put_bytes(lent, content, len);
}

void lend(struct lent *lent, const uint8_t *content, size_t len)
{
    lend_aligned(lent, content, len, 1);
}

uint16_t *lend_numbers(struct lent *lent, const uint16_t *content, size_t count)
{
    lend_aligned(lent, content, count * sizeof *content, sizeof *content);
    return (uint16_t *)(void *)lent->bytes;
}

/* From the second page on the memory is read alone. */
void lend_to_read(struct lent *lent, const void *content, size_t len,
                  size_t from)
{
    if (!lent->memory)
        open_memory(lent);
    protect(lent->memory + PAGE, ROOM - PAGE, PROT_READ | PROT_WRITE);
    lent->high = 1; /* the guard stands before it */
    lent->bytes = lent->memory + PAGE - from;
    put_bytes(lent, content, len);
    protect(lent->memory + PAGE, ROOM - PAGE, PROT_READ);
}

int lent_is(const struct lent *lent, const void *content)
{
    return !memcmp(guard_of(lent), guard, GUARD) &&
           !memcmp(lent->bytes, content, lent->len);
}
