/*
 * watch.c: an access to the shut pages raises SIGSEGV. Its handler notes it,
 * opens the pages of that half and sets the processor's trap flag; so SIGTRAP
 * comes after that one instruction, and its handler shuts all pages again.
 */
#define _GNU_SOURCE
#include "watch.h"

#include <signal.h>
#include <stdio.h>
#include <stdlib.h>
#include <string.h>
#include <sys/mman.h>
#include <ucontext.h>

#define TRAP_FLAG 0x100 /* of the flags register */
#define WRITE_FAULT 2   /* of a page fault's error code */

struct note notes[MOST_NOTES];
size_t noted;
static uint8_t *pages;  /* of the first half, and then of the second */
static uint8_t *buffer; /* its second half begins where the second pages do */

static void protect(uint8_t *from, size_t len, int how)
{
    if (mprotect(from, len, how) != 0)
        abort();
}

static void reached(int number, siginfo_t *info, void *context)
{
    greg_t *registers = ((ucontext_t *)context)->uc_mcontext.gregs;
    uint8_t *reached_for = info->si_addr;
    size_t at = (size_t)(reached_for - pages);
    (void)number;
    if (at >= 2 * WATCHED_HALF || noted == MOST_NOTES)
        abort(); /* another bad access, or too many */
    notes[noted].place = (int32_t)(reached_for - buffer);
    notes[noted].is_write = (registers[REG_ERR] & WRITE_FAULT) != 0;
    noted++;
    protect(pages + at / WATCHED_HALF * WATCHED_HALF, WATCHED_HALF,
            PROT_READ | PROT_WRITE);
    registers[REG_EFL] |= TRAP_FLAG;
}

static void stepped(int number, siginfo_t *info, void *context)
{
    greg_t *registers = ((ucontext_t *)context)->uc_mcontext.gregs;
    (void)number;
    (void)info;
    registers[REG_EFL] &= ~(greg_t)TRAP_FLAG;
    protect(pages, 2 * WATCHED_HALF, PROT_NONE);
}

static void handle(int number, void (*handler)(int, siginfo_t *, void *))
{
    struct sigaction action;
    memset(&action, 0, sizeof action);
    action.sa_flags = SA_SIGINFO;
    action.sa_sigaction = handler;
    sigaction(number, &action, NULL);
}

static void open_pages(void)
{
    void *all = mmap(NULL, 2 * WATCHED_HALF, PROT_READ | PROT_WRITE,
                     MAP_PRIVATE | MAP_ANONYMOUS, -1, 0);
    if (all == MAP_FAILED)
        abort();
    handle(SIGSEGV, reached);
    handle(SIGTRAP, stepped);
    pages = all;
}

uint8_t *watched_buffer(size_t half_bytes)
{
    if (!pages)
        open_pages();
    return buffer = pages + WATCHED_HALF - half_bytes;
}

void watch_begin(void)
{
    noted = 0;
    protect(pages, 2 * WATCHED_HALF, PROT_NONE);
}

void watch_end(void)
{
    protect(pages, 2 * WATCHED_HALF, PROT_READ | PROT_WRITE);
}
