/* The cores that are compared, and a workload with what was measured on it. */

#ifndef WORKLOAD_H
#define WORKLOAD_H

#include "rounds.h"

#ifdef NO_PROVED
enum { MGBA, PLAIN, CORES };
#else
enum { MGBA, PLAIN, PROVED, CORES };
#endif

/* By the numbers above. */
extern const struct core *const cores[CORES];

/* The budgets of a slice, to show that a step costs the same at each: from 1,024
 * to the greatest there is, each four times the one before. */
enum { BUDGETS = 6, LEAST_BUDGET = 1024 };
uint32_t budget_of(unsigned index);

/* The core that is run at each budget. */
#ifdef NO_PROVED
enum { SLICED = PLAIN };
#else
enum { SLICED = PROVED };
#endif

struct workload {
	const char *name;
	uint8_t image[IMAGE_SIZE];
	uint64_t steps; /* of each core in a round */
	struct costs costs[CORES];
	struct costs sliced[BUDGETS];
};

/* One round: every core once, and one core at each budget. The program ends where
 * a core comes to another end than the plain one. */
void measure_round(struct workload *workload, unsigned round);

/* How many times as fast a core is as another. */
struct ratio speed(const struct workload *workload, unsigned of, unsigned against);

/* What a step costs in slices of one budget, against another. */
struct ratio growth(const struct workload *workload, unsigned budget, unsigned against);

#endif
