/* SPDX-License-Identifier: GPL-2.0-only OR MIT */
/* Two jobs on two processors at once, for kernel/test. */
#ifndef HCUBE_JOBS_H
#define HCUBE_JOBS_H

/* Compares for some seconds and prints one line; 0, or the kernel's error number, EIO where an answer is wrong. */
int hcube_jobs_compare(void);

#endif
