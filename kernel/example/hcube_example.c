// SPDX-License-Identifier: GPL-2.0-only OR MIT
/*
 * An example of a kernel module that calls the functions of hcube.h; the calls are in stored.c. At load it labels each
 * stored cube for both jobs in one buffer, asks why each node of either has its label, and hop, why that hop, and walk
 * for all pairs, reads the stored notices and lists, writes others, repairs the stored tables, hops and walks by
 * networks for stored pairs, compares with the stored answers and prints one line. Then it compares list text with the
 * kernel's own (hcube_lists.c).
 */
#include <linux/init.h>
#include <linux/kernel.h>
#include <linux/module.h>
#include <linux/slab.h>

#include "hcube_hammer.h"
#include "hcube_jobs.h"
#include "hcube_lists.h"
#include "stored.h"

/* Labels one job, the other one having been labelled before; returns how many of the two halves are wrong then. */
static size_t __init wrong_labels(const struct hcube_cube *cube, uint32_t job, uint8_t *labels)
{
	const struct hcube_closing *closings = cube->closings;
	size_t wrong = !hcube_labels_are_right(cube, job, &closings[job], labels);

	return wrong + !hcube_half_is_right(cube, !job, &closings[!job], labels);
}

/* Asks why one job's nodes have their labels, which leaves the other half alone, and what is asked of pairs. */
static size_t __init wrong_questions(const struct hcube_cube *cube, uint32_t job, uint8_t *labels)
{
	const struct hcube_closing *closings = cube->closings;
	size_t wrong = hcube_wrong_whys(cube, job, &closings[job], labels);

	wrong += !hcube_half_is_right(cube, !job, &closings[!job], labels);
	return wrong + hcube_wrong_pairs(cube, job, &closings[job], labels);
}

/* Labels the cube for both jobs, one of them once more, asks and compares; returns how many answers are wrong. */
static size_t __init wrong_answers(const struct hcube_cube *cube, uint8_t *labels)
{
	size_t wrong = !hcube_labels_are_right(cube, 0, &cube->closings[0], labels);
	uint32_t job;

	wrong += wrong_labels(cube, 1, labels);
	wrong += wrong_labels(cube, 0, labels);
	for (job = 0; job < HCUBE_JOBS; job++)
		wrong += wrong_questions(cube, job, labels);
	if (wrong)
		pr_err("hcube_example: %zu wrong answers in the cube %s\n", wrong, cube->name);
	return wrong;
}

/* Says so where some are wrong; how many. */
static size_t __init said(size_t wrong, const char *what)
{
	if (wrong)
		pr_err("hcube_example: %zu %s wrong\n", wrong, what);
	return wrong;
}

static int __init hcube_example_init(void)
{
	uint8_t *labels = kmalloc(HCUBE_LABEL_BYTES(12), GFP_KERNEL); /* too much for the kernel's stack */
	size_t k, whys = 0, pairs = 0, wrong = 0;
	int error;

	if (!labels)
		return -ENOMEM;
	wrong += said(hcube_wrong_notices(), "notices");
	wrong += said(hcube_wrong_writings(), "notices written");
	wrong += said(hcube_wrong_lists(), "lists");
	wrong += said(hcube_wrong_list_writings(), "lists written");
	wrong += said(hcube_wrong_repairings(), "tables repaired");
	wrong += said(hcube_wrong_networkings(), "pairs by networks");
	for (k = 0; k < hcube_stored_count; k++) {
		wrong += wrong_answers(&hcube_stored[k], labels);
		whys += HCUBE_JOBS * hcube_whys(&hcube_stored[k]);
		pairs += HCUBE_JOBS * hcube_pairs(&hcube_stored[k]);
	}
	kfree(labels);
	pr_info("hcube_example: %zu cubes labelled for two jobs, %zu nodes, %zu pairs, %zu notices read and %zu written, %zu lists read and %zu written, %zu tables repaired, %zu pairs by networks compared, %zu wrong\n",
		hcube_stored_count, whys, pairs, hcube_notice_count, hcube_writing_count, hcube_list_count,
		hcube_list_writing_count, hcube_repairing_count, hcube_networking_count, wrong);
	error = wrong ? -EIO : hcube_lists_compare();
	if (!error)
		error = hcube_jobs_compare();
	return error ? error : hcube_hammer_start();
}

static void __exit hcube_example_exit(void)
{
	hcube_hammer_stop();
}

module_init(hcube_example_init);
module_exit(hcube_example_exit);
MODULE_DESCRIPTION("Example of the hypercube routing functions");
MODULE_LICENSE("Dual MIT/GPL");
