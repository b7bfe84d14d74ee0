/*
 * noted.h: the accesses that were noted while a call for one job ran (watch.h),
 * held one after the other against those that are expected. Each of them is in
 * that job's half; one outside it is never expected.
 */
#ifndef NOTED_H
#define NOTED_H

#include <stddef.h>
#include <stdint.h>

extern size_t at;       /* the notes before this one were as expected */
extern char wrong[160]; /* what was not; else empty */

/* Begins with the first note of a call for this job. */
void expect_from_start(uint32_t n, uint32_t job);

/* The next access is to this node's label; `what` says which it is. */
void expect_access(int write, uint32_t node, const char *what);
/* The next are reads of the labels of its first so many neighbours. */
void expect_neighbours(uint32_t node, uint32_t so_many, const char *what);
/* The next are reads of its label and of those of all its neighbours, each once, in
 * whichever order. */
void expect_around(uint32_t node, const char *what);
/* The next are writes, or reads, alone, as many as there are. */
void expect_writes(void);
void expect_reads(void);
/* The next are reads and writes of the job's half, as many as there are. */
void expect_half(void);
/* The next go once through the job's half, in whatever steps: reads and writes
 * each upwards. */
void expect_pass(void);
/* There are no more. */
void expect_end(void);

#endif
