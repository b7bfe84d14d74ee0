/* SPDX-License-Identifier: GPL-2.0-only OR MIT */
/* List text beside the kernel's own printing and parsing, for kernel/test. */
#ifndef HCUBE_LISTS_H
#define HCUBE_LISTS_H

/* Compares and prints one line; 0, or the kernel's error number, EIO where the two differ. */
int hcube_lists_compare(void);

#endif
