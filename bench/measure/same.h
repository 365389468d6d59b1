/* Whether two cores came to the same end. */

#ifndef SAME_H
#define SAME_H

#include "rounds.h"

/* What a core came to on a workload. */
struct end {
	const struct core *core;
	struct timed timed;
	uint8_t image[IMAGE_SIZE];
};

/* Says the first difference on the error output, where there is one. */
bool same_end(const char *workload, const struct end *expected, const struct end *given);

#endif
