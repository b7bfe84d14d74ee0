/* groups.h: the groups of checks that tests/library.c runs. */
#ifndef GROUPS_H
#define GROUPS_H

void check_worked_numbers(void);  /* worked.c */
void check_worked_why(void);      /* worked_why.c */
void check_worked_notices(void);  /* worked_notice.c */
void check_worked_lists(void);    /* worked_list.c */
void check_worked_repairs(void);  /* worked_repair.c */
void check_worked_networks(void); /* worked_networks.c */
void check_most_exchanges(void);  /* exchanges.c */
void check_one_exchange(void);
void check_ceilings(void);
void check_small_cubes(void);     /* tables.c */
void check_small_labels(void);
void check_moved(void);
void check_random_tables(void);
void check_random_labels(void);
void check_hop_reads(void);
void check_label_buffer(void);
void check_draining(void);        /* draining.c */
void check_draining_ends(void);
void check_bounds(void);          /* bounds.c */
void check_enough(void);          /* enough.c */
void check_not_enough(void);
void check_long_walks(void);      /* long_walks.c */
void check_frames(void);          /* frames.c */
void check_jobs(void);            /* jobs.c */
void check_job_orders(void);
void check_halves(void);          /* halves.c */
void check_closed(void);          /* closed.c */
void check_neighbours_out(void);
void check_worked_jobs(void);
void check_why_small(void);       /* why_node.c */
void check_why_random(void);
void check_why_rounds(void);
void check_why_named(void);       /* why_named.c */
void check_why_hops(void);        /* why_hop.c */
void check_scans_taken(void);
void check_lengths(void);         /* lengths.c */
void check_damaged(void);         /* refusals.c */
void check_plain_numbers(void);
void check_hop_combinations(void); /* combinations.c */
void check_walk_combinations(void);
void check_label_combinations(void); /* combinations_label.c */
void check_job_combinations(void);
void check_orders(void);          /* orders.c */
void check_dimensions(void);      /* dimensions.c */
void check_notice_orders(void);   /* orders_notice.c */
void check_notices(void);         /* notices.c */
void check_damaged_notices(void);
void check_cut_notices(void);
void check_notice_bounds(void);
void check_places(void);          /* places.c */
void check_cut_answers(void);
void check_long_notices(void);    /* long_notices.c */
void check_last_place(void);
void check_written(void);         /* written.c */
void check_written_shapes(void);
void check_written_rooms(void);
void check_written_back(void);    /* written_back.c */
void check_write_combinations(void); /* written_refused.c */
void check_write_damaged(void);
void check_write_dimensions(void);
void check_write_left(void);
void check_short_texts(void);     /* list_texts.c */
void check_list_bytes(void);
void check_random_lists(void);
void check_damaged_lists(void);
void check_long_numbers(void);    /* list_numbers.c */
void check_wrapped_numbers(void);
void check_long_lists(void);
void check_list_written(void);    /* list_written.c */
void check_list_runs(void);
void check_list_rooms(void);
void check_list_back(void);       /* list_back.c */
void check_list_combinations(void); /* list_refused.c */
void check_write_list_combinations(void);
void check_list_dimensions(void);
void check_list_left(void);
void check_list_lengths(void);    /* list_lengths.c */
void check_small_repairs(void);   /* repaired.c */
void check_few_masks(void);
void check_random_repairs(void);
void check_cabinets_repaired(void);
void check_repaired_again(void);  /* repaired_again.c */
void check_repaired_chain(void);
void check_repair_combinations(void); /* repair_refused.c */
void check_repair_strays(void);
void check_repair_damaged(void);
void check_repair_dimensions(void);
void check_repair_left(void);
void check_repair_lengths(void);  /* repair_lengths.c */
void check_net_small(void);       /* networks.c */
void check_net_random(void);
void check_net_reads(void);
void check_net_blocks(void);      /* networks_blocks.c */
void check_net_steps(void);       /* networks_walks.c */
void check_net_arrivals(void);
void check_net_long(void);        /* networks_long.c */
void check_net_hop_combinations(void); /* networks_refused.c */
void check_net_walk_combinations(void);
void check_net_damaged(void);     /* networks_damaged.c */
void check_net_numbers(void);
void check_net_left(void);
void check_net_lengths(void);     /* networks_lengths.c */

/* Of all that came before; coverage.c. */
void check_refusals_seen(void);
void check_endings_seen(void);
void check_why_seen(void);
void check_networks_seen(void);

#endif
