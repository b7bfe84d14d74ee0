/* reads.h: what the two parts of the program `reads` share. */
#ifndef READS_H
#define READS_H

#include <stdint.h>

/* The cube and the job at hand. */
extern uint32_t n, job;

/* Prints `ok ..`, or `FAIL ..` where something is wrong (noted.h). */
void result(const char *what, unsigned cases);

/* reads_asked.c */
void check_hops(void);
void check_walks(void);
void check_why_labels(void);
void check_why_hops(void);
void check_net_hops(void);
void check_net_walks(void);
void check_refused(void);

#endif
