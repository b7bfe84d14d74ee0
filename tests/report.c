/* report.c: a group of checks, in the process that it has to itself. */
#define _DEFAULT_SOURCE /* alarm */
#include "report.h"

#include <signal.h>
#include <stdarg.h>
#include <stdint.h>
#include <stdio.h>
#include <unistd.h>

#include "cases.h"
#include "runs.h"

/* In the process of a group, what it leaves. */
static struct left *left;

unsigned long only;

void begin_group(const char *title)
{
    left->title = title;
}

void end_group(void)
{
    left->ended = 1;
}

static void end_process(void)
{
    left->seen = seen;
    fflush(stdout);
    _exit(0);
}

static void print_why(const char *why, va_list values)
{
    printf("  %s: ", left->title);
    vprintf(why, values);
    printf("\n");
}

void expect(int holds, const char *why, ...)
{
    va_list values;
    left->cases++;
    if (only && left->cases != only)
        return;
    if (!holds) {
        if (left->failures++ == 0)
            left->first = left->cases;
        va_start(values, why);
        if (left->failures <= 3)
            print_why(why, values);
        va_end(values);
    }
    if (only) {
        end_group();
        end_process();
    }
}

/* A touched guard page, or whatever else ends the process before its time. */
static void on_signal(int number)
{
    _exit(128 + number);
}

/* Another seed for each group: its word, mixed as FNV-1a does. */
static uint64_t seed_of(const char *word)
{
    uint64_t seed = 21;
    for (; word && *word; word++)
        seed = (seed ^ (uint8_t)*word) * 0x100000001b3u;
    return seed;
}

void run_process(const struct run *run)
{
    static const int ends[] = {SIGSEGV, SIGBUS, SIGILL, SIGFPE, SIGTRAP, SIGABRT,
                               SIGALRM};
    for (size_t k = 0; k < COUNT(ends); k++)
        signal(ends[k], on_signal);
    left = run->left;
    if (run->group->word) /* what it sees itself; the others speak of all */
        seen = (struct seen){0};
    alarm(MOST_SECONDS);
    dup2(fileno(run->printed), STDOUT_FILENO);
    setvbuf(stdout, NULL, _IOLBF, 0); /* nothing is lost by a signal */
    random_seed(seed_of(run->group->word));
    run->group->check();
    end_process();
}
