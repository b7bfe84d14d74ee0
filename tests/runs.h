/*
 * runs.h: the processes of groups, for report.c, which is what runs in one, and for
 * runs.c, which starts them.
 */
#ifndef RUNS_H
#define RUNS_H

#include <stdio.h>
#include <sys/types.h>

#include "report.h"
#include "seen.h"

#define MOST_SECONDS 300u /* of one group, on a slow machine */

/* What the process of a group leaves to the program, in memory that they share. */
struct left {
    const char *title;
    unsigned long cases, failures, first; /* the first that failed; 0 if none did */
    int ended;
    struct seen seen;
};

/* A group that runs or has run. */
struct run {
    const struct group *group;
    pid_t process;
    int has_ended, status; /* 0, or 128 and the signal */
    struct left *left;
    FILE *printed;
};

/* The case that is replayed; 0 if all are run. */
extern unsigned long only;

/* Runs the check of the group, here, and ends the process. */
void run_process(const struct run *run);

#endif
