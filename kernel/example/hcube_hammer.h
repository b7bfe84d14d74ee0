/* SPDX-License-Identifier: GPL-2.0-only OR MIT */
/* The load of kernel/test. */
#ifndef HCUBE_HAMMER_H
#define HCUBE_HAMMER_H

/* Makes the file /proc/hcube_demo; 0, or the kernel's error number. */
int hcube_hammer_start(void);

/* Takes it away and prints one line of what was compared. */
void hcube_hammer_stop(void);

#endif
