// SPDX-License-Identifier: GPL-2.0-only OR MIT
/*
 * Two jobs with one label buffer, each on a processor of its own, for kernel/test; a driver needs nothing of it. Of
 * each stored cube, job 0 is labelled over and over, its closed table changing, while job 1 asks hop, why that hop, and
 * walk; then job 1 is labelled and job 0 asks; then both are labelled. Half of the labellings are questions why a node
 * has its label. Each side compares every answer, and every byte of its own half, with what is stored, and counts how
 * often the other one was labelled meanwhile.
 */
#include <linux/atomic.h>
#include <linux/cpumask.h>
#include <linux/delay.h>
#include <linux/err.h>
#include <linux/jiffies.h>
#include <linux/kernel.h>
#include <linux/kthread.h>
#include <linux/sched.h>
#include <linux/slab.h>
#include <linux/string.h>

#include "hcube_jobs.h"
#include "stored.h"

/* A trial ends once so many comparisons were made meanwhile, or when its time is over, which is longer while there is none. */
enum { TRIAL_LEAST_MS = 50, TRIAL_MOST_MS = 500, TRIAL_NONE_MS = 10000, TRIAL_MEANWHILE = 2000 };

struct side {
	const struct hcube_cube *cube;
	uint8_t *labels; /* those of both jobs */
	uint32_t job;
	bool relabels; /* else it asks */
	const struct side *other;
	struct task_struct *thread;
	atomic_t calls; /* of labelling, begun and ended */
	unsigned long compared;
	unsigned long meanwhile; /* of these, while how many a labelling of the other's began or ended */
	unsigned long wrong;
};

struct trial {
	struct side sides[HCUBE_JOBS];
	uint8_t labels[HCUBE_LABEL_BYTES(12)];
};

struct counts {
	unsigned long labellings, questions, meanwhile, wrong;
	unsigned long least; /* made meanwhile in a trial */
};

/* The closed table changes each time; two labellings and two questions why take turns. */
static bool relabelling_is_right(struct side *side)
{
	const struct hcube_cube *cube = side->cube;
	const struct hcube_closing *closing = &cube->closings[side->compared % HCUBE_JOBS];
	unsigned long turn = side->compared / HCUBE_JOBS;
	uint32_t x = turn / 2 % HCUBE_NODES(cube->n);
	bool right;

	memset(side->labels + HCUBE_HALF(cube->n, side->job), HCUBE_UNTOUCHED, HCUBE_NODES(cube->n));
	atomic_inc(&side->calls);
	if (turn % 2)
		right = hcube_why_stored(cube, side->job, closing, side->labels, x) == closing->whys[x];
	else
		right = hcube_label_stored(cube, side->job, closing, side->labels) == closing->label;
	atomic_inc(&side->calls);
	return right && hcube_half_is_right(cube, side->job, closing, side->labels);
}

static bool question_is_right(struct side *side)
{
	const struct hcube_cube *cube = side->cube;
	const struct hcube_closing *closing = &cube->closings[side->job];
	uint32_t ends = HCUBE_NODES(cube->n) + 1, pair = side->compared % hcube_pairs(cube);

	return hcube_pair_is_right(cube, side->job, closing, side->labels, pair / ends, pair % ends) &&
	       hcube_half_is_right(cube, side->job, closing, side->labels);
}

static int run(void *data)
{
	struct side *side = data;

	while (!kthread_should_stop()) {
		int before = atomic_read(&side->other->calls);
		bool right = side->relabels ? relabelling_is_right(side) : question_is_right(side);

		side->compared++;
		side->wrong += !right;
		if (atomic_read(&side->other->calls) != before)
			WRITE_ONCE(side->meanwhile, side->meanwhile + 1);
		cond_resched();
	}
	return 0;
}

/* Labels both halves for a start. Bit k of `relabelling` says whether job k is labelled again and again. */
static void set_up(struct trial *trial, const struct hcube_cube *cube, unsigned int relabelling)
{
	uint32_t job;

	for (job = 0; job < HCUBE_JOBS; job++) {
		trial->sides[job] = (struct side){
			.cube = cube,
			.labels = trial->labels,
			.job = job,
			.relabels = relabelling >> job & 1,
			.other = &trial->sides[!job],
			.calls = ATOMIC_INIT(0),
		};
		hcube_label_stored(cube, job, &cube->closings[job], trial->labels);
	}
}

/* One thread for each side, on the first two processors. */
static int make_threads(struct side *sides)
{
	unsigned int processor = cpumask_first(cpu_online_mask);
	uint32_t job;

	for (job = 0; job < HCUBE_JOBS; job++) {
		struct task_struct *thread = processor < nr_cpu_ids ?
						     kthread_create(run, &sides[job], "hcube_job_%u", job) :
						     ERR_PTR(-ENODEV);

		if (IS_ERR(thread)) {
			if (job)
				kthread_stop(sides[0].thread);
			return PTR_ERR(thread);
		}
		kthread_bind(thread, processor);
		sides[job].thread = thread;
		processor = cpumask_next(processor, cpu_online_mask);
	}
	return 0;
}

/* The fewest that a side made meanwhile, of those whose other side is labelled. */
static unsigned long least_meanwhile(const struct side *sides)
{
	unsigned long least = ULONG_MAX;
	uint32_t job;

	for (job = 0; job < HCUBE_JOBS; job++)
		if (sides[!job].relabels)
			least = min(least, READ_ONCE(sides[job].meanwhile));
	return least;
}

static bool is_over(const struct side *sides, unsigned long start)
{
	unsigned long meanwhile = least_meanwhile(sides);

	return meanwhile >= TRIAL_MEANWHILE ||
	       time_after_eq(jiffies, start + msecs_to_jiffies(meanwhile ? TRIAL_MOST_MS : TRIAL_NONE_MS));
}

static int run_trial(struct side *sides)
{
	unsigned long start = jiffies;
	int error = make_threads(sides);

	if (error)
		return error;
	wake_up_process(sides[0].thread);
	wake_up_process(sides[1].thread);
	do {
		msleep(TRIAL_LEAST_MS);
	} while (!is_over(sides, start));
	kthread_stop(sides[0].thread);
	kthread_stop(sides[1].thread);
	return 0;
}

static void add_trial(struct counts *counts, const struct side *sides)
{
	uint32_t job;

	for (job = 0; job < HCUBE_JOBS; job++) {
		const struct side *side = &sides[job];

		*(side->relabels ? &counts->labellings : &counts->questions) += side->compared;
		counts->meanwhile += side->meanwhile;
		counts->wrong += side->wrong;
		if (side->wrong)
			pr_err("hcube_jobs: cube %s, job %u %s: %lu of %lu wrong\n", side->cube->name, job,
			       side->relabels ? "labelled" : "asked", side->wrong, side->compared);
	}
	counts->least = min(counts->least, least_meanwhile(sides));
}

int hcube_jobs_compare(void)
{
	struct trial *trial = kmalloc(sizeof(*trial), GFP_KERNEL);
	struct counts counts = { .least = ULONG_MAX };
	unsigned int relabelling;
	int error = 0;
	size_t k;

	if (!trial)
		return -ENOMEM;
	for (k = 0; k < hcube_stored_count; k++)
		for (relabelling = 1; relabelling <= 3 && hcube_stored[k].has_tables && !error; relabelling++) {
			set_up(trial, &hcube_stored[k], relabelling);
			error = run_trial(trial->sides);
			if (!error)
				add_trial(&counts, trial->sides);
		}
	kfree(trial);
	if (error == -ENODEV)
		pr_info("hcube_jobs: NOT RUN, since there is one processor\n");
	if (error)
		return error == -ENODEV ? 0 : error;
	pr_info("hcube_jobs: %lu labellings and %lu questions compared, %lu while the other job was labelled, %lu at least in each trial, %lu wrong\n",
		counts.labellings, counts.questions, counts.meanwhile, counts.least, counts.wrong);
	return counts.wrong ? -EIO : 0;
}
