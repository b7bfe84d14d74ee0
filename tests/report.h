/*
 * report.h: groups of checks, each run in a process of its own; what is printed of
 * them; and the line that replays the first case of a group that failed.
 */
#ifndef REPORT_H
#define REPORT_H

#include <stddef.h>

struct group {
    const char *word; /* names it for a replay; null where it cannot run alone */
    void (*check)(void);
};

/* Runs each check in a process that starts as the program did, with random numbers
 * by the group's word, as many at once as there are processors. So a group does the
 * same alone as among the others, and what ends one ends no other. Prints in their
 * order `ok library TITLE: N cases` or `FAIL ..`, and counts what they saw (seen.h);
 * whether one failed.
 *
 * Behind FAIL stands a line `replay: ..`, if the environment has the first words
 * of it in REPLAY. */
int run_groups(const struct group *groups, size_t count);

/* Runs the check up to this case, the first being 1, and prints whether it holds,
 * why not, and the last question that was asked of the library (asked.h). 0 or 1;
 * 2 if the group has not so many cases, which is said on standard error. */
int run_case(const struct group *group, unsigned long number);

/* Memory that a process of a group shares with the program. */
void *shared_memory(size_t len);

/* A check begins with begin_group and ends with end_group. */
void begin_group(const char *title);
void end_group(void);
/* One more case of the group; when it does not hold, the text says why. */
void expect(int holds, const char *why, ...);

#endif
