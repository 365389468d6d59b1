/* Runs one core on one image for so many cycles in slices of a budget, for a tool
 * that counts instructions: within the function `counted`, or in all of this
 * program. Prints the steps taken there.
 *
 *   count CORE BUDGET IMAGE CYCLES */

#include "given.h"
#include "rounds.h"

#include <inttypes.h>
#include <stdio.h>
#include <string.h>

static const struct core *const counted_cores[] = {
	&proved_core,
	&plain_core,
#ifndef NO_MGBA
	&mgba_core,
#endif
};

static const struct core *core_named(const char *name) {
	for (unsigned c = 0; c < sizeof counted_cores / sizeof counted_cores[0]; ++c) {
		if (!strcmp(counted_cores[c]->name, name)) {
			return counted_cores[c];
		}
	}
	fail(name, "is no core of this program");
}

/* A tool finds this function by its name. */
__attribute__((noipa)) struct timed counted(const struct core *core, uint32_t budget, uint32_t cycles) {
	return run_slices(core, budget, cycles);
}

int main(int count, char **arguments) {
	static uint8_t image[IMAGE_SIZE];
	if (count != 5) {
		fail("usage", "count CORE BUDGET IMAGE CYCLES");
	}
	const struct core *core = core_named(arguments[1]);
	uint32_t budget = read_number(arguments[2], BUDGET_LIMIT);
	uint32_t cycles = read_number(arguments[4], BUDGET_LIMIT);
	read_image(arguments[3], image);
	core->load(image);
	core->run(1); /* binds the functions of libraries */
	core->load(image);
	counted(core, budget, cycles);
	plain_core.load(image); /* as not every core counts its steps */
	printf("%" PRIu64 "\n", run_slices(&plain_core, budget, cycles).steps);
	return 0;
}
