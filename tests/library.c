/*
 * library.c: holds the library, linked as an archive, against the reference.
 *
 *   library               runs all groups of checks; the last four say that
 *                         every refusal, ending, scan, cause and block came up
 *   library GROUP         runs one, by its word in the table below
 *   library GROUP CASE    runs one case of it, the first being 1, and prints it
 *
 * Prints a line for each group. Status 1: one failed. 2: there is no such one.
 */
#include <ctype.h>
#include <stdio.h>
#include <stdlib.h>
#include <string.h>

#include "cases.h"
#include "check.h"
#include "groups.h"

/* The words are also read by tests/run. */
static const struct group groups[] = {
    {"worked_numbers", check_worked_numbers},
    {"worked_why", check_worked_why},
    {"worked_notices", check_worked_notices},
    {"worked_lists", check_worked_lists},
    {"worked_repairs", check_worked_repairs},
    {"worked_networks", check_worked_networks},
    {"orders", check_orders},
    {"label_combinations", check_label_combinations},
    {"job_combinations", check_job_combinations},
    {"hop_combinations", check_hop_combinations},
    {"walk_combinations", check_walk_combinations},
    {"notice_orders", check_notice_orders},
    {"plain_numbers", check_plain_numbers},
    {"lengths", check_lengths},
    {"small_cubes", check_small_cubes},
    {"small_labels", check_small_labels},
    {"most_exchanges", check_most_exchanges},
    {"one_exchange", check_one_exchange},
    {"ceilings", check_ceilings},
    {"moved", check_moved},
    {"draining", check_draining},
    {"draining_ends", check_draining_ends},
    {"bounds", check_bounds},
    {"enough", check_enough},
    {"not_enough", check_not_enough},
    {"closed", check_closed},
    {"neighbours_out", check_neighbours_out},
    {"worked_jobs", check_worked_jobs},
    {"jobs", check_jobs},
    {"job_orders", check_job_orders},
    {"halves", check_halves},
    {"random_tables", check_random_tables},
    {"random_labels", check_random_labels},
    {"long_walks", check_long_walks},
    {"frames", check_frames},
    {"hop_reads", check_hop_reads},
    {"label_buffer", check_label_buffer},
    {"why_small", check_why_small},
    {"why_named", check_why_named},
    {"why_random", check_why_random},
    {"why_rounds", check_why_rounds},
    {"why_hops", check_why_hops},
    {"scans_taken", check_scans_taken},
    {"damaged", check_damaged},
    {"dimensions", check_dimensions},
    {"notices", check_notices},
    {"damaged_notices", check_damaged_notices},
    {"cut_notices", check_cut_notices},
    {"notice_bounds", check_notice_bounds},
    {"places", check_places},
    {"cut_answers", check_cut_answers},
    {"long_notices", check_long_notices},
    {"last_place", check_last_place},
    {"written", check_written},
    {"written_shapes", check_written_shapes},
    {"written_rooms", check_written_rooms},
    {"written_back", check_written_back},
    {"write_combinations", check_write_combinations},
    {"write_damaged", check_write_damaged},
    {"write_dimensions", check_write_dimensions},
    {"write_left", check_write_left},
    {"short_texts", check_short_texts},
    {"list_bytes", check_list_bytes},
    {"random_lists", check_random_lists},
    {"damaged_lists", check_damaged_lists},
    {"long_numbers", check_long_numbers},
    {"wrapped_numbers", check_wrapped_numbers},
    {"long_lists", check_long_lists},
    {"list_written", check_list_written},
    {"list_runs", check_list_runs},
    {"list_rooms", check_list_rooms},
    {"list_back", check_list_back},
    {"list_combinations", check_list_combinations},
    {"write_list_combinations", check_write_list_combinations},
    {"list_dimensions", check_list_dimensions},
    {"list_left", check_list_left},
    {"list_lengths", check_list_lengths},
    {"small_repairs", check_small_repairs},
    {"few_masks", check_few_masks},
    {"random_repairs", check_random_repairs},
    {"cabinets_repaired", check_cabinets_repaired},
    {"repaired_again", check_repaired_again},
    {"repaired_chain", check_repaired_chain},
    {"repair_combinations", check_repair_combinations},
    {"repair_strays", check_repair_strays},
    {"repair_damaged", check_repair_damaged},
    {"repair_dimensions", check_repair_dimensions},
    {"repair_left", check_repair_left},
    {"repair_lengths", check_repair_lengths},
    {"net_small", check_net_small},
    {"net_random", check_net_random},
    {"net_reads", check_net_reads},
    {"net_blocks", check_net_blocks},
    {"net_steps", check_net_steps},
    {"net_arrivals", check_net_arrivals},
    {"net_long", check_net_long},
    {"net_hop_combinations", check_net_hop_combinations},
    {"net_walk_combinations", check_net_walk_combinations},
    {"net_damaged", check_net_damaged},
    {"net_numbers", check_net_numbers},
    {"net_left", check_net_left},
    {"net_lengths", check_net_lengths},
};

/* They speak of all that came before them, so that no word runs them alone. */
static const struct group coverage[] = {
    {NULL, check_refusals_seen},
    {NULL, check_endings_seen},
    {NULL, check_why_seen},
    {NULL, check_networks_seen},
};

static int run_all(void)
{
    int failed = run_groups(groups, COUNT(groups));
    return run_groups(coverage, COUNT(coverage)) | failed;
}

/* A number of digits alone, from 1 on; else 0. */
static unsigned long case_number(const char *digits)
{
    return isdigit((unsigned char)*digits) ? strtoul(digits, NULL, 10) : 0;
}

int main(int count, char **words)
{
    if (count == 1)
        return run_all();
    for (size_t k = 0; k < COUNT(groups); k++) {
        if (strcmp(words[1], groups[k].word) != 0)
            continue;
        if (count == 2)
            return run_groups(&groups[k], 1);
        if (count == 3 && case_number(words[2]) != 0)
            return run_case(&groups[k], case_number(words[2]));
    }
    fprintf(stderr, "usage: library [GROUP [CASE]]\n");
    return 2;
}
