/* Runs of a core that are timed, and what the times of several rounds say. */

#ifndef ROUNDS_H
#define ROUNDS_H

#include "core.h"

enum { MOST_ROUNDS = 99 };

/* What this process has taken so far, in seconds. */
double processor_time(void);

/* A run in slices: what it did, and the processor time it took. */
struct timed {
	uint8_t code;
	uint64_t spent, steps;
	double seconds;
};

/* Runs the core on, for so many cycles in slices of one budget. */
struct timed run_slices(const struct core *core, uint32_t budget, uint64_t cycles);

/* The cost of a step in each round. */
struct costs {
	unsigned rounds;
	double cost[MOST_ROUNDS];
};

void add_round(struct costs *costs, double cost);

/* A ratio of two costs: of the best rounds, and the least and greatest of the
 * ratios within a round. */
struct ratio {
	double best, least, greatest;
};

struct ratio ratio_of(const struct costs *above, const struct costs *below);

#endif
