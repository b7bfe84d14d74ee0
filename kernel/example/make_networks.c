// SPDX-License-Identifier: GPL-2.0-only OR MIT
/*
 * Writes networks.h: hops and walks by virtual networks, with the answers of tests/reference_networks.c, on boards with
 * 1 to 5 networks. They are of random pairs of each stored cube, whose labels are in answers.h, and of cubes with random
 * labels, where walks go through more networks; and each stored cube is there with one thing wrong. It runs where the
 * module is built.
 */
#include "cubes.h"
#include "reference.h"

#include <string.h>

enum { PAIRS = 40, DRAWN = 40, RANDOM_CUBES = 12, HOPS = 64 };

/* All that is handed over. */
struct question {
	uint32_t n, networks, job, s, d, network, down;
	size_t labels_len, hops_len;
};

struct labelled {
	const char *name; /* of its bytes, without _labels */
	uint32_t n;
	uint8_t labels[2 * NODES];
};

static unsigned int hops_answered[256], walks_answered[256]; /* how many have each refusal */
static unsigned int delivered, halted, in_network[5]; /* walks, and hops of them */

static void count_walk(uint32_t answer, const uint8_t *hops)
{
	uint32_t k;

	walks_answered[answer >> 24]++;
	if (answer >> 24)
		return;
	delivered += !(answer >> 16);
	halted += answer >> 16;
	for (k = 0; k < (answer & 0xffff); k++)
		in_network[hops[k] >> 4]++;
}

static void print_question(const struct labelled *cube, const struct question *q)
{
	uint8_t hops[HOPS];
	uint32_t hop, walk;

	memset(hops, UNTOUCHED, sizeof hops);
	hop = ref_hop_networks(q->n, q->networks, q->job, q->s, q->d, q->network, q->down, cube->labels, q->labels_len);
	walk = ref_walk_networks(q->n, q->networks, q->job, q->s, q->d, cube->labels, q->labels_len, hops, q->hops_len);
	hops_answered[hop >> 24]++;
	count_walk(walk, hops);
	printf("{%uu, %uu, %uu, %uu, %uu, %uu, %uu, ", q->n, q->networks, q->job, q->s, q->d, q->network, q->down);
	printf("%s_labels, %zu, %zu, %uu, %uu, ", cube->name, q->labels_len, q->hops_len, hop, walk);
	print_bytes(hops, sizeof hops);
	printf("},\n");
}

/* The room is what it must be, or a byte or two more. */
static struct question random_question(const struct labelled *cube)
{
	struct question q = { .n = cube->n, .labels_len = ref_label_bytes(cube->n) };

	q.networks = 1 + below(5);
	q.job = below(2);
	q.s = below(1u << q.n);
	q.d = below(1u << q.n);
	q.network = below(q.networks);
	q.down = below(2);
	q.hops_len = 2 * q.n * q.networks + below(3);
	return q;
}

static void print_damaged(const struct labelled *cube)
{
	static const uint32_t no_dimensions[] = { 0, 13, 0x80000001 }, no_networks[] = { 0, 6, 0x80000001 };
	static const uint32_t no_jobs[] = { 2, 0x80000000 };
	struct question good = random_question(cube), q;
	size_t k;

#define WRONG(part, value) (q = good, q.part = (value), print_question(cube, &q))
	for (k = 0; k < sizeof no_dimensions / sizeof no_dimensions[0]; k++)
		WRONG(n, no_dimensions[k]);
	for (k = 0; k < sizeof no_networks / sizeof no_networks[0]; k++)
		WRONG(networks, no_networks[k]);
	for (k = 0; k < sizeof no_jobs / sizeof no_jobs[0]; k++)
		WRONG(job, no_jobs[k]);
	WRONG(network, good.networks);
	WRONG(down, 2);
	WRONG(labels_len, good.labels_len - 1);
	WRONG(labels_len, good.labels_len + 1);
	WRONG(hops_len, 2 * good.n * good.networks - 1);
	WRONG(hops_len, 0);
	WRONG(s, 1u << good.n);
	WRONG(d, 1u << good.n);
#undef WRONG
}

/* The network of the last hop; 0 where there is none. */
static unsigned int last_network(const struct labelled *cube, const struct question *q)
{
	uint8_t hops[HOPS];
	uint32_t answer = ref_walk_networks(q->n, q->networks, q->job, q->s, q->d, cube->labels, q->labels_len, hops,
					    q->hops_len);

	return answer >> 24 || !(answer & 0xffff) ? 0 : hops[(answer & 0xffff) - 1] >> 4;
}

/* Of so many random ones, that whose walk goes through the most networks. */
static void print_farthest(const struct labelled *cube, int drawn)
{
	struct question best = random_question(cube), q;

	while (--drawn > 0) {
		q = random_question(cube);
		if (last_network(cube, &q) > last_network(cube, &best))
			best = q;
	}
	print_question(cube, &best);
}

/* ---- the cubes */

static struct labelled stored_cube(const struct cube *cube)
{
	struct labelled stored = { cube->name, cube->n, { 0 } };
	size_t size = ref_label_bytes(cube->n), len = ref_fault_bytes(cube->n);
	uint32_t job;

	for (job = 0; job < 2; job++) {
		uint8_t faults[NODES / 8] = { 0 }, draining[NODES / 8] = { 0 }, closed[NODES / 8] = { 0 };

		add_nodes(&cube->faults, faults);
		add_nodes(&cube->draining, draining);
		add_nodes(&cube->closed[job], closed);
		ref_label(cube->n, cube->rule, job, faults, len, draining, len, closed, len, stored.labels,
			  size);
	}
	if (cube->given)
		memcpy(stored.labels, cube->given, size);
	return stored;
}

/* Of dimension 6. Its bytes are printed at once. */
static struct labelled random_cube(int k)
{
	static const uint8_t some[] = { 0, 0, 1, 1, 2, 2, 2, 3, 3, 3, 4 };
	static char names[RANDOM_CUBES][16];
	struct labelled cube = { names[k], 6, { 0 } };
	int x;

	snprintf(names[k], sizeof names[k], "random_%d", k);
	for (x = 0; x < 2 * NODES; x++)
		cube.labels[x] = some[below(sizeof some)];
	printf("static const uint8_t %s_labels[] = ", cube.name);
	print_bytes(cube.labels, sizeof cube.labels);
	printf(";\n");
	return cube;
}

/* Whether each refusal is there, each end of a walk, and hops in the first three networks; says how many. */
static int all_came_up(void)
{
	static const uint8_t of_hops[] = { 0, 1, 2, 4, 5, 6, 15, 16, 19 };
	static const uint8_t of_walks[] = { 0, 1, 2, 4, 5, 6, 7, 13, 15, 16, 19 };
	int is_all = came_up("hops", hops_answered, of_hops, sizeof of_hops), k;

	is_all &= came_up("walks", walks_answered, of_walks, sizeof of_walks);
	is_all &= delivered >= 20 && halted >= 20;
	printf("/* %u walks delivered, %u halted */\n", delivered, halted);
	for (k = 0; k < 5; k++) {
		printf("/* network %d: %u hops of walks */\n", k, in_network[k]);
		is_all &= k > 2 || in_network[k] >= 20;
	}
	return is_all;
}

int main(void)
{
	static struct labelled labelled[CUBES + RANDOM_CUBES];
	int k, pair;

	printf("/* SPDX-License-Identifier: GPL-2.0-only OR MIT */\n/* Written by make_networks. */\n");
	for (k = 0; k < CUBES; k++)
		labelled[k] = stored_cube(&cubes[k]);
	for (k = 0; k < RANDOM_CUBES; k++)
		labelled[CUBES + k] = random_cube(k);
	printf("static const struct hcube_networking networkings[] = {\n");
	for (k = 0; k < CUBES + RANDOM_CUBES; k++)
		for (pair = 0; pair < PAIRS; pair++)
			print_farthest(&labelled[k], k < CUBES || pair % 2 ? 1 : DRAWN);
	for (k = 0; k < CUBES; k++)
		print_damaged(&labelled[k]);
	printf("};\n");
	if (all_came_up())
		return 0;
	fprintf(stderr, "make_networks: a refusal, an end or a network came up fewer than 20 times\n");
	return 1;
}
