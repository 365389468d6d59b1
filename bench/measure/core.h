/* The cores that are measured, behind one face. Each has a machine of its own,
 * loaded from an image and saved to one, both outside the measured time. */

#ifndef CORE_H
#define CORE_H

#include <stdbool.h>
#include <stddef.h>
#include <stdint.h>

enum {
	HEAD_SIZE = 23,
	MEMORY_SIZE = 65536,
	IMAGE_SIZE = HEAD_SIZE + MEMORY_SIZE,
	BUDGET_LIMIT = 1048576,
};

/* What a run answers. A core that does not count its steps leaves them 0. */
struct ran {
	uint8_t code;
	uint32_t spent, steps;
};

struct core {
	const char *name;
	bool counts_steps;
	void (*load)(const uint8_t *image);
	struct ran (*run)(uint32_t budget);
	void (*save)(uint8_t *image);
};

extern const struct core proved_core, mgba_core, plain_core;

#endif
