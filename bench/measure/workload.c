#include "workload.h"

#include "same.h"

#include <stdio.h>
#include <stdlib.h>

enum { ROUND_CYCLES = 2 * BUDGET_LIMIT };

const struct core *const cores[CORES] = {
	[MGBA] = &mgba_core,
	[PLAIN] = &plain_core,
#ifndef NO_PROVED
	[PROVED] = &proved_core,
#endif
};

uint32_t budget_of(unsigned index) {
	return (uint32_t) LEAST_BUDGET << 2 * index;
}

static void run_core(const struct workload *w, unsigned c, uint32_t budget, struct end *end) {
	end->core = cores[c];
	cores[c]->load(w->image);
	end->timed = run_slices(cores[c], budget, ROUND_CYCLES);
	cores[c]->save(end->image);
	if (end->timed.code != 0) {
		fprintf(stderr, "bench: %s: %s refuses with %u\n", w->name, cores[c]->name,
		        end->timed.code);
		exit(1);
	}
}

/* In each round another core comes first. */
static void measure_cores(struct workload *w, unsigned round) {
	static struct end ends[CORES];
	for (unsigned i = 0; i < CORES; ++i) {
		unsigned c = (i + round) % CORES;
		run_core(w, c, BUDGET_LIMIT, &ends[c]);
	}
	w->steps = ends[PLAIN].timed.steps;
	for (unsigned c = 0; c < CORES; ++c) {
		if (!same_end(w->name, &ends[PLAIN], &ends[c])) {
			exit(1);
		}
		add_round(&w->costs[c], ends[c].timed.seconds / (double) w->steps);
	}
}

/* The slices of two budgets end a few cycles apart, so a cost is one of a step. */
static void measure_budgets(struct workload *w, unsigned round) {
	static struct end end;
	for (unsigned i = 0; i < BUDGETS; ++i) {
		unsigned b = (i + round) % BUDGETS;
		run_core(w, SLICED, budget_of(b), &end);
		add_round(&w->sliced[b], end.timed.seconds / (double) end.timed.steps);
	}
}

void measure_round(struct workload *workload, unsigned round) {
	measure_cores(workload, round);
	measure_budgets(workload, round);
}

struct ratio speed(const struct workload *workload, unsigned of, unsigned against) {
	return ratio_of(&workload->costs[against], &workload->costs[of]);
}

struct ratio growth(const struct workload *workload, unsigned budget, unsigned against) {
	return ratio_of(&workload->sliced[budget], &workload->sliced[against]);
}
