/* The proved core, through the C interface of its static library. */

#include "core.h"

#include "../../include/trnadulek.h"

#include <string.h>

static uint8_t state[TRNADULEK_STATE_SIZE];
static _Alignas(4096) uint8_t memory[MEMORY_SIZE];

/* A refused image leaves the all-zero state, and the comparison of the ends shows it. */
static void load(const uint8_t *image) {
	trnadulek_open_image(image, IMAGE_SIZE, state);
	memcpy(memory, image + HEAD_SIZE, MEMORY_SIZE);
}

static struct ran run(uint32_t budget) {
	struct ran ran;
	ran.code = trnadulek_run(state, memory, MEMORY_SIZE, budget, &ran.spent, &ran.steps);
	return ran;
}

static void save(uint8_t *image) {
	trnadulek_save_image(state, memory, MEMORY_SIZE, image, IMAGE_SIZE);
}

const struct core proved_core = { "proved", true, load, run, save };
