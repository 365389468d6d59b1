/* A state block and a memory as a host has them, and what they were before a call. */
#ifndef UNIT_H
#define UNIT_H

#include "../trnadulek.h"
#include "check.h"

struct unit {
    struct guarded state;
    struct guarded memory;
    struct guarded old_state;
    struct guarded old_memory;
};

/* What a run answers and counts. */
struct ran {
    uint8_t code;
    uint32_t spent;
    uint32_t steps;
};

/* The all-zero state, and a memory of zeros. */
struct unit unit_new(void);
void unit_release(struct unit *unit);

/* Puts registers into the state block. */
void unit_set(struct unit *unit, const struct trnadulek_cpu *cpu);
struct trnadulek_cpu unit_cpu(const struct unit *unit);

/* Puts bytes into the memory. */
void unit_put(struct unit *unit, uint16_t at, const uint8_t *bytes, size_t count);

/* The worked example: the adding routine about to add 1 to 199, and a check that it has. */
struct unit unit_adding(void);
void unit_check_added(const char *what, struct unit *unit);

/* One step, and a run. */
uint8_t unit_step(struct unit *unit, uint8_t *cycles);
struct ran unit_run(struct unit *unit, uint32_t budget);

/* Saves state and memory as an image, opens them from one again, and runs an image where it lies. */
struct guarded unit_image(const struct unit *unit);
void unit_open(struct unit *unit, const struct guarded *image);
struct ran image_run(struct guarded *image, size_t length, uint32_t budget);

/* Remembers state and memory, and checks that they are as remembered. */
void unit_remember(struct unit *unit);
void unit_check_unchanged(const char *what, const struct unit *unit);

void check_cpu(const char *what, const struct trnadulek_cpu *expected, const struct trnadulek_cpu *got);
void check_ran(const char *what, struct ran ran, uint8_t code, uint32_t spent, uint32_t steps);

#endif
