/* The plain C core as one of those measured. */

#include "core.h"
#include "saved.h"

#include <string.h>

static uint8_t head[HEAD_SIZE];
static _Alignas(4096) uint8_t memory[MEMORY_SIZE];
static struct plain cpu;

static void load(const uint8_t *image) {
	memcpy(head, image, HEAD_SIZE);
	memcpy(memory, image + HEAD_SIZE, MEMORY_SIZE);
	cpu = read_head(head);
}

static struct ran run(uint32_t budget) {
	struct ran ran;
	ran.code = plain_run(&cpu, memory, MEMORY_SIZE, budget, &ran.spent, &ran.steps);
	return ran;
}

static void save(uint8_t *image) {
	write_head(cpu, head);
	memcpy(image, head, HEAD_SIZE);
	memcpy(image + HEAD_SIZE, memory, MEMORY_SIZE);
}

const struct core plain_core = { "plain", true, load, run, save };
