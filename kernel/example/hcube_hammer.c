// SPDX-License-Identifier: GPL-2.0-only OR MIT
/*
 * The load of kernel/test; a driver needs nothing of it. Whoever writes a number of milliseconds to /proc/hcube_demo,
 * which has the module's name, has all stored answers compared again and again for that long, in his own process and
 * with interrupts on. Meanwhile a timer interrupts every 100 microseconds and compares nine things itself: a pair, of
 * each cube and of either job in turn; one of the job that the process is not at work for, in the very buffer that it
 * is at work in; a node of that job there, which labels it once more; a notice and a list that are read, and one of each
 * that is written; a table that is repaired, of which some have random masks; and a pair by networks.
 */
#include <linux/atomic.h>
#include <linux/hrtimer.h>
#include <linux/jiffies.h>
#include <linux/kernel.h>
#include <linux/proc_fs.h>
#include <linux/sched/signal.h>
#include <linux/slab.h>
#include <linux/spinlock.h>
#include <linux/version.h>

#include "hcube_hammer.h"
#include "stored.h"

#define HAMMER_FILE KBUILD_MODNAME
#define HAMMER_PERIOD ns_to_ktime(100 * 1000)

static atomic64_t pairs, interrupts, beside, whys, whys_beside, notices, writings, lists, list_writings, repairings,
	networkings, wrong;

struct hammer {
	struct hrtimer timer;
	uint32_t turn;
	uint8_t labels[HCUBE_LABEL_BYTES(12)];
	/* While there is a cube, the half of job `still` in `labels` is that cube's; only the timer writes it. */
	spinlock_t lock;
	const struct hcube_cube *cube;
	uint32_t still;
};

/* Says which half is left to the timer from now on; the other one may change. */
static void keep_still(struct hammer *hammer, const struct hcube_cube *cube, uint32_t job)
{
	spin_lock_irq(&hammer->lock);
	hammer->cube = cube;
	hammer->still = job;
	spin_unlock_irq(&hammer->lock);
}

/* A pair and a node of that half, while the process labels the other one or asks. */
static void compare_in_half(struct hammer *hammer, const struct hcube_cube *cube, uint32_t job)
{
	const struct hcube_closing *closing = &cube->closings[job];
	uint32_t nodes = HCUBE_NODES(cube->n), pair = hammer->turn % (nodes * nodes);

	if (!hcube_pair_is_right(cube, job, closing, hammer->labels, pair / nodes, pair % nodes))
		atomic64_inc(&wrong);
	atomic64_inc(&beside);
	if (!cube->has_tables)
		return;
	if (!hcube_why_is_right(cube, job, closing, hammer->labels, hammer->turn % nodes))
		atomic64_inc(&wrong);
	atomic64_inc(&whys_beside);
}

static void compare_beside(struct hammer *hammer)
{
	spin_lock(&hammer->lock);
	if (hammer->cube)
		compare_in_half(hammer, hammer->cube, hammer->still);
	spin_unlock(&hammer->lock);
}

static enum hrtimer_restart interrupted(struct hrtimer *timer)
{
	struct hammer *hammer = container_of(timer, struct hammer, timer);
	uint32_t job = hammer->turn % HCUBE_JOBS, turn = hammer->turn / HCUBE_JOBS;
	const struct hcube_cube *cube = &hcube_stored[turn % hcube_stored_count];
	uint32_t nodes = HCUBE_NODES(cube->n), pair = turn / hcube_stored_count % (nodes * nodes);

	hammer->turn++;
	if (!hcube_pair_is_right(cube, job, &cube->closings[job], cube->labels, pair / nodes, pair % nodes))
		atomic64_inc(&wrong);
	compare_beside(hammer);
	if (!hcube_notice_is_right(&hcube_notices[hammer->turn % hcube_notice_count]))
		atomic64_inc(&wrong);
	if (!hcube_writing_is_right(&hcube_writings[hammer->turn % hcube_writing_count]))
		atomic64_inc(&wrong);
	if (!hcube_list_is_right(&hcube_lists[hammer->turn % hcube_list_count]))
		atomic64_inc(&wrong);
	if (!hcube_list_writing_is_right(&hcube_list_writings[hammer->turn % hcube_list_writing_count]))
		atomic64_inc(&wrong);
	if (!hcube_repairing_is_right(&hcube_repairings[hammer->turn % hcube_repairing_count]))
		atomic64_inc(&wrong);
	if (!hcube_networking_is_right(&hcube_networkings[hammer->turn % hcube_networking_count]))
		atomic64_inc(&wrong);
	atomic64_inc(&interrupts);
	hrtimer_forward_now(timer, HAMMER_PERIOD);
	return HRTIMER_RESTART;
}

static void set_up(struct hammer *hammer)
{
	spin_lock_init(&hammer->lock);
#if LINUX_VERSION_CODE >= KERNEL_VERSION(6, 13, 0)
	hrtimer_setup(&hammer->timer, interrupted, CLOCK_MONOTONIC, HRTIMER_MODE_REL_PINNED);
#else
	hrtimer_init(&hammer->timer, CLOCK_MONOTONIC, HRTIMER_MODE_REL_PINNED);
	hammer->timer.function = interrupted;
#endif
}

/*
 * Labelling, notices, lists, repairs and pairs by networks take their turns too: about a twentieth of the time each, the
 * last two by estimate.
 * Asking why, which labels for each node, takes about a third.
 */
static void compare(const struct hcube_cube *cube, uint32_t job, uint8_t *labels)
{
	const struct hcube_closing *closing = &cube->closings[job];
	int turn;

	for (turn = 0; turn < 10; turn++)
		if (!hcube_labels_are_right(cube, job, closing, labels))
			atomic64_inc(&wrong);
	atomic64_add(hcube_wrong_whys(cube, job, closing, labels), &wrong);
	atomic64_add(hcube_whys(cube), &whys);
	atomic64_add(hcube_wrong_pairs(cube, job, closing, labels), &wrong);
	atomic64_add(hcube_pairs(cube), &pairs);
	atomic64_add(hcube_wrong_notices(), &wrong);
	atomic64_add(hcube_notice_count, &notices);
	atomic64_add(hcube_wrong_writings(), &wrong);
	atomic64_add(hcube_writing_count, &writings);
	atomic64_add(hcube_wrong_lists(), &wrong);
	atomic64_add(hcube_list_count, &lists);
	atomic64_add(hcube_wrong_list_writings(), &wrong);
	atomic64_add(hcube_list_writing_count, &list_writings);
	atomic64_add(hcube_wrong_repairings(), &wrong);
	atomic64_add(hcube_repairing_count, &repairings);
	atomic64_add(hcube_wrong_networkings(), &wrong);
	atomic64_add(hcube_networking_count, &networkings);
}

/* Each job in turn, while the timer asks the other one. */
static void compare_both(struct hammer *hammer, const struct hcube_cube *cube)
{
	if (!hcube_labels_are_right(cube, 1, &cube->closings[1], hammer->labels))
		atomic64_inc(&wrong);
	keep_still(hammer, cube, 1);
	compare(cube, 0, hammer->labels);
	keep_still(hammer, cube, 0);
	compare(cube, 1, hammer->labels);
	keep_still(hammer, NULL, 0);
}

static void compare_for(unsigned int milliseconds, struct hammer *hammer)
{
	unsigned long end = jiffies + msecs_to_jiffies(milliseconds);
	size_t k;

	while (time_before(jiffies, end) && !fatal_signal_pending(current))
		for (k = 0; k < hcube_stored_count; k++) {
			compare_both(hammer, &hcube_stored[k]);
			cond_resched();
		}
}

static ssize_t hammer_write(struct file *file, const char __user *text, size_t count, loff_t *place)
{
	struct hammer *hammer;
	unsigned int milliseconds;
	int error = kstrtouint_from_user(text, count, 10, &milliseconds);

	if (error)
		return error;
	hammer = kzalloc(sizeof(*hammer), GFP_KERNEL);
	if (!hammer)
		return -ENOMEM;
	set_up(hammer);
	hrtimer_start(&hammer->timer, HAMMER_PERIOD, HRTIMER_MODE_REL_PINNED);
	compare_for(milliseconds, hammer);
	hrtimer_cancel(&hammer->timer);
	kfree(hammer);
	return count;
}

static const struct proc_ops hammer_ops = {
	.proc_write = hammer_write,
};

int hcube_hammer_start(void)
{
	return proc_create(HAMMER_FILE, 0200, NULL, &hammer_ops) ? 0 : -ENOMEM;
}

void hcube_hammer_stop(void)
{
	remove_proc_entry(HAMMER_FILE, NULL);
	pr_info("hcube_hammer: %lld pairs compared, %lld in interrupts, %lld beside the other job at work, %lld nodes compared, %lld beside the other job at work, %lld notices read, %lld in interrupts, %lld written, %lld in interrupts, %lld lists read, %lld in interrupts, %lld written, %lld in interrupts, %lld tables repaired, %lld in interrupts, %lld pairs by networks, %lld in interrupts, %lld wrong\n",
		(long long)(atomic64_read(&pairs) + atomic64_read(&interrupts) + atomic64_read(&beside)),
		(long long)atomic64_read(&interrupts), (long long)atomic64_read(&beside),
		(long long)(atomic64_read(&whys) + atomic64_read(&whys_beside)), (long long)atomic64_read(&whys_beside),
		(long long)(atomic64_read(&notices) + atomic64_read(&interrupts)), (long long)atomic64_read(&interrupts),
		(long long)(atomic64_read(&writings) + atomic64_read(&interrupts)), (long long)atomic64_read(&interrupts),
		(long long)(atomic64_read(&lists) + atomic64_read(&interrupts)), (long long)atomic64_read(&interrupts),
		(long long)(atomic64_read(&list_writings) + atomic64_read(&interrupts)),
		(long long)atomic64_read(&interrupts),
		(long long)(atomic64_read(&repairings) + atomic64_read(&interrupts)),
		(long long)atomic64_read(&interrupts),
		(long long)(atomic64_read(&networkings) + atomic64_read(&interrupts)),
		(long long)atomic64_read(&interrupts),
		(long long)atomic64_read(&wrong));
}
