/* Measures the cores against each other on the workloads, all in this process.
 *
 *   measure [--goals] [--rounds N] NAME=IMAGE... */

#include "given.h"
#include "report.h"
#include "workload.h"

#include <string.h>

enum { MOST_WORKLOADS = 8 };

static struct workload workloads[MOST_WORKLOADS];
static unsigned workload_count;
static unsigned rounds = 40;
static bool goals_are_wanted;

static void add_workload(char *argument) {
	char *equals = strchr(argument, '=');
	if (!equals || workload_count == MOST_WORKLOADS) {
		fail(argument, "is not NAME=IMAGE, or one workload too many");
	}
	struct workload *w = &workloads[workload_count++];
	*equals = 0;
	w->name = argument;
	read_image(equals + 1, w->image);
}

static void read_arguments(int count, char **arguments) {
	for (int i = 1; i < count; ++i) {
		if (!strcmp(arguments[i], "--goals")) {
			goals_are_wanted = true;
		} else if (!strcmp(arguments[i], "--rounds") && i + 1 < count) {
			rounds = read_number(arguments[++i], MOST_ROUNDS);
		} else {
			add_workload(arguments[i]);
		}
	}
	if (workload_count == 0) {
		fail("usage", "measure [--goals] [--rounds N] NAME=IMAGE...");
	}
}

int main(int count, char **arguments) {
	read_arguments(count, arguments);
	for (unsigned round = 0; round < rounds; ++round) {
		for (unsigned w = 0; w < workload_count; ++w) {
			measure_round(&workloads[w], round);
		}
	}
	print_speed(workloads, workload_count);
	print_growth(workloads, workload_count);
	bool met = print_goals(workloads, workload_count);
	return goals_are_wanted && !met ? 1 : 0;
}
