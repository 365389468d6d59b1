#include "unit.h"

#include <string.h>

struct unit unit_new(void)
{
    struct unit unit;
    unit.state = guarded_bytes(TRNADULEK_STATE_SIZE, 0);
    unit.memory = guarded_bytes(TRNADULEK_MEMORY_SIZE, 0);
    unit.old_state = guarded_bytes(TRNADULEK_STATE_SIZE, 0);
    unit.old_memory = guarded_bytes(TRNADULEK_MEMORY_SIZE, 0);
    return unit;
}

void unit_release(struct unit *unit)
{
    guarded_release("beside a state", &unit->state);
    guarded_release("beside a memory", &unit->memory);
    guarded_release("beside an old state", &unit->old_state);
    guarded_release("beside an old memory", &unit->old_memory);
}

void unit_set(struct unit *unit, const struct trnadulek_cpu *cpu)
{
    trnadulek_state_of_cpu(cpu, unit->state.bytes);
}

struct trnadulek_cpu unit_cpu(const struct unit *unit)
{
    struct trnadulek_cpu cpu;
    trnadulek_cpu_of_state(unit->state.bytes, &cpu);
    return cpu;
}

void unit_put(struct unit *unit, uint16_t at, const uint8_t *bytes, size_t count)
{
    size_t i;
    for (i = 0; i < count; i++) {
        unit->memory.bytes[(at + i) % TRNADULEK_MEMORY_SIZE] = bytes[i];
    }
}

struct unit unit_adding(void)
{
    static const uint8_t routine[] = {0xA7, 0x1A, 0x8E, 0x27, 0x22, 0x13, 0x05, 0x20, 0xF8, 0xC9};
    static const uint8_t score[] = {0x99, 0x01};
    static const uint8_t won[] = {0x01, 0x00};
    static const uint8_t return_to[] = {0x34, 0x12};
    const struct trnadulek_cpu start = {.b = 2, .d = 0xC1, .h = 0xC0, .sp = 0xDFFE, .pc = 0x0150};
    struct unit unit = unit_new();
    unit_set(&unit, &start);
    unit_put(&unit, 0x0150, routine, sizeof routine);
    unit_put(&unit, 0xC000, score, sizeof score);
    unit_put(&unit, 0xC100, won, sizeof won);
    unit_put(&unit, 0xDFFE, return_to, sizeof return_to);
    unit_remember(&unit);
    return unit;
}

void unit_check_added(const char *what, struct unit *unit)
{
    static const uint8_t sum[] = {0x00, 0x02};
    const struct trnadulek_cpu end = {
        .a = 0x02, .f = 0xC0, .d = 0xC1, .e = 0x02, .h = 0xC0, .l = 0x02, .sp = 0xE000, .pc = 0x1234};
    struct trnadulek_cpu got = unit_cpu(unit);
    check_cpu(what, &end, &got);
    memcpy(unit->old_memory.bytes + 0xC000, sum, sizeof sum);
    check_bytes(what, unit->old_memory.bytes, unit->memory.bytes, unit->memory.count);
}

uint8_t unit_step(struct unit *unit, uint8_t *cycles)
{
    *cycles = 0xA5;
    return trnadulek_step(unit->state.bytes, unit->memory.bytes, unit->memory.count, cycles);
}

struct ran unit_run(struct unit *unit, uint32_t budget)
{
    struct ran ran = {0xA5, 0xA5A5A5A5, 0x5A5A5A5A};
    ran.code = trnadulek_run(unit->state.bytes, unit->memory.bytes, unit->memory.count, budget, &ran.spent, &ran.steps);
    return ran;
}

struct guarded unit_image(const struct unit *unit)
{
    struct guarded image = guarded_bytes(TRNADULEK_IMAGE_SIZE, 0xA5);
    check_number("an image is saved", TRNADULEK_DONE,
                 trnadulek_save_image(unit->state.bytes, unit->memory.bytes, unit->memory.count, image.bytes,
                                      image.count));
    return image;
}

void unit_open(struct unit *unit, const struct guarded *image)
{
    check_number("an image is opened", TRNADULEK_DONE,
                 trnadulek_open_image(image->bytes, image->count, unit->state.bytes));
    memcpy(unit->memory.bytes, image->bytes + TRNADULEK_HEAD_SIZE, unit->memory.count);
}

struct ran image_run(struct guarded *image, size_t length, uint32_t budget)
{
    struct ran ran = {0xA5, 0xA5A5A5A5, 0x5A5A5A5A};
    ran.code = trnadulek_run_image(image->bytes, length, budget, &ran.spent, &ran.steps);
    return ran;
}

void unit_remember(struct unit *unit)
{
    memcpy(unit->old_state.bytes, unit->state.bytes, unit->state.count);
    memcpy(unit->old_memory.bytes, unit->memory.bytes, unit->memory.count);
}

void unit_check_unchanged(const char *what, const struct unit *unit)
{
    check_bytes(what, unit->old_state.bytes, unit->state.bytes, unit->state.count);
    check_bytes(what, unit->old_memory.bytes, unit->memory.bytes, unit->memory.count);
}

void check_cpu(const char *what, const struct trnadulek_cpu *expected, const struct trnadulek_cpu *got)
{
    uint8_t expected_state[TRNADULEK_STATE_SIZE];
    uint8_t got_state[TRNADULEK_STATE_SIZE];
    trnadulek_state_of_cpu(expected, expected_state);
    trnadulek_state_of_cpu(got, got_state);
    check_bytes(what, expected_state, got_state, TRNADULEK_STATE_SIZE);
}

void check_ran(const char *what, struct ran ran, uint8_t code, uint32_t spent, uint32_t steps)
{
    check_number(what, code, ran.code);
    check_number(what, spent, ran.spent);
    check_number(what, steps, ran.steps);
}
