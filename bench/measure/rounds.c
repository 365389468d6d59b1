#include "rounds.h"

#include <time.h>

double processor_time(void) {
	struct timespec now;
	clock_gettime(CLOCK_PROCESS_CPUTIME_ID, &now);
	return (double) now.tv_sec + (double) now.tv_nsec * 1e-9;
}

struct timed run_slices(const struct core *core, uint32_t budget, uint64_t cycles) {
	struct timed timed = { 0 };
	double start = processor_time();
	for (uint64_t slices = cycles / budget; slices > 0 && timed.code == 0; --slices) {
		struct ran ran = core->run(budget);
		timed.code = ran.code;
		timed.spent += ran.spent;
		timed.steps += ran.steps;
	}
	timed.seconds = processor_time() - start;
	return timed;
}

void add_round(struct costs *costs, double cost) {
	costs->cost[costs->rounds++] = cost;
}

static double best(const struct costs *costs) {
	double least = costs->cost[0];
	for (unsigned i = 1; i < costs->rounds; ++i) {
		least = costs->cost[i] < least ? costs->cost[i] : least;
	}
	return least;
}

struct ratio ratio_of(const struct costs *above, const struct costs *below) {
	double first = above->cost[0] / below->cost[0];
	struct ratio ratio = { best(above) / best(below), first, first };
	for (unsigned i = 1; i < above->rounds; ++i) {
		double one = above->cost[i] / below->cost[i];
		ratio.least = one < ratio.least ? one : ratio.least;
		ratio.greatest = one > ratio.greatest ? one : ratio.greatest;
	}
	return ratio;
}
