#include "report.h"

#include <inttypes.h>
#include <stdio.h>

/* What is compared with what, and the least that is wanted of it. */
static const struct comparison {
	unsigned of, against;
	double goal;
} comparisons[] = {
#ifndef NO_PROVED
	{ PROVED, MGBA, 2.5 },
	{ PROVED, PLAIN, 0.75 },
#endif
	{ PLAIN, MGBA, 0 },
};
enum { COMPARISONS = sizeof comparisons / sizeof comparisons[0] };

/* What a step may cost at a budget, against one at any smaller budget. A cost that
 * grew with the budget would be far above this; a shared machine stays below. */
static const double GROWTH_GOAL = 1.25;

enum { NUMBER_SIZE = 32 };

/* A number with a comma before every three digits. */
static const char *with_commas(uint64_t number, char text[NUMBER_SIZE]) {
	char digits[NUMBER_SIZE];
	int length = snprintf(digits, sizeof digits, "%" PRIu64, number);
	char *out = text;
	for (int i = 0; i < length; ++i) {
		if (i > 0 && (length - i) % 3 == 0) {
			*out++ = ',';
		}
		*out++ = digits[i];
	}
	*out = 0;
	return text;
}

static void print_ratio(struct ratio ratio) {
	printf(" %.2f (%.2f to %.2f) |", ratio.best, ratio.least, ratio.greatest);
}

/* Ends the first line of a table. */
static void print_rule(unsigned columns) {
	printf("\n|");
	while (columns-- > 0) {
		printf("---|");
	}
	printf("\n");
}

void print_speed(const struct workload *workloads, unsigned count) {
	char text[NUMBER_SIZE];
	printf("| workload | steps |");
	for (unsigned k = 0; k < COMPARISONS; ++k) {
		printf(" %s / %s |", cores[comparisons[k].of]->name, cores[comparisons[k].against]->name);
	}
	print_rule(2 + COMPARISONS);
	for (const struct workload *w = workloads; w < workloads + count; ++w) {
		printf("| %s | %s |", w->name, with_commas(w->steps, text));
		for (unsigned k = 0; k < COMPARISONS; ++k) {
			print_ratio(speed(w, comparisons[k].of, comparisons[k].against));
		}
		printf("\n");
	}
	printf("\nHow many times as fast the first core is as the second: of the best of %u rounds, and\n"
	       "the least and greatest within a round. In every round all cores ended with the same\n"
	       "cycles, registers and memory.\n\n", workloads->costs[PLAIN].rounds);
}

void print_growth(const struct workload *workloads, unsigned count) {
	char text[NUMBER_SIZE];
	printf("| budget of a slice |");
	for (unsigned i = 0; i < count; ++i) {
		printf(" %s |", workloads[i].name);
	}
	print_rule(1 + count);
	for (unsigned b = 1; b < BUDGETS; ++b) {
		printf("| %s |", with_commas(budget_of(b), text));
		for (unsigned i = 0; i < count; ++i) {
			print_ratio(growth(&workloads[i], b, 0));
		}
		printf("\n");
	}
	printf("\nWhat a step of the %s core costs, against one in slices of %s cycles.\n\n",
	       cores[SLICED]->name, with_commas(LEAST_BUDGET, text));
}

static bool print_speed_goals(const struct workload *w) {
	bool met = true;
	for (unsigned k = 0; k < COMPARISONS; ++k) {
		const struct comparison *c = &comparisons[k];
		double given = speed(w, c->of, c->against).best;
		if (given < c->goal) {
			printf("goal missed: %s: %s / %s is %.2f, wanted at least %.2f\n", w->name,
			       cores[c->of]->name, cores[c->against]->name, given, c->goal);
			met = false;
		}
	}
	return met;
}

/* Against the smaller budget where a step costs the least. */
static double greatest_growth(const struct workload *w, unsigned budget) {
	double greatest = 0;
	for (unsigned smaller = 0; smaller < budget; ++smaller) {
		double one = growth(w, budget, smaller).best;
		greatest = one > greatest ? one : greatest;
	}
	return greatest;
}

static bool print_growth_goals(const struct workload *w) {
	char text[NUMBER_SIZE];
	bool met = true;
	for (unsigned b = 1; b < BUDGETS; ++b) {
		double given = greatest_growth(w, b);
		if (given > GROWTH_GOAL) {
			printf("goal missed: %s: a step at budget %s costs %.2f times one at a smaller budget, "
			       "wanted at most %.2f\n", w->name, with_commas(budget_of(b), text), given,
			       GROWTH_GOAL);
			met = false;
		}
	}
	return met;
}

bool print_goals(const struct workload *workloads, unsigned count) {
	bool met = true;
	for (unsigned i = 0; i < count; ++i) {
		met &= print_speed_goals(&workloads[i]);
		met &= print_growth_goals(&workloads[i]);
	}
	if (met) {
		printf("all goals met\n");
	}
	return met;
}
