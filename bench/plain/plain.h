/* A plain SM83 core in C, written for the benchmark: the bound that the proved
 * core is measured against. It keeps all the rules of document 01, and of M-100 in
 * document 02, for a step and a run, and no promise but the comparison with the
 * second program stands behind it. */

#ifndef PLAIN_H
#define PLAIN_H

#include <stddef.h>
#include <stdint.h>

enum {
	PLAIN_MEMORY_SIZE = 65536,
	PLAIN_BUDGET_LIMIT = 1048576,
};

/* The interrupt switch, with the numbers of the saved state. */
enum { PLAIN_OFF, PLAIN_ARMING, PLAIN_ON };

/* The mode, with the numbers of the saved state. */
enum { PLAIN_RUNNING, PLAIN_REPEAT, PLAIN_HALTED, PLAIN_STOPPED };

/* Refusal numbers. */
enum {
	PLAIN_DONE,
	PLAIN_MEMORY_LENGTH,
	PLAIN_FLAG_BITS,
	PLAIN_IS_STOPPED,
	PLAIN_UNDEFINED,
	PLAIN_BUDGET,
};

struct plain {
	uint8_t a, f, b, c, d, e, h, l;
	uint16_t sp, pc;
	uint8_t ime, mode;
};

/* Takes steps while the cycles spent are below the budget. Answers a refusal
 * number, and always sets `spent` and `steps`. */
uint8_t plain_run(struct plain *cpu, uint8_t *memory, size_t memory_length,
                  uint32_t budget, uint32_t *spent, uint32_t *steps);

/* One step: a run with budget 1. A refused step sets `cycles` to 0. */
uint8_t plain_step(struct plain *cpu, uint8_t *memory, size_t memory_length,
                   uint8_t *cycles);

#endif
