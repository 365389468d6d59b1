/* What a step refuses, in its order, and that a refused step leaves everything as it was. */
#include "tests.h"

#include "unit.h"

#include <string.h>

enum { UNDEFINED_OPCODE = 0xD3 };

/* A step that is refused: the number, 0 cycles, and nothing changed. */
static void refused(const char *what, uint8_t code, struct unit *unit, size_t memory_len)
{
    uint8_t cycles = 0xA5;
    unit_remember(unit);
    check_number(what, code, trnadulek_step(unit->state.bytes, unit->memory.bytes, memory_len, &cycles));
    check_number(what, 0, cycles);
    unit_check_unchanged(what, unit);
}

/* Everything is wrong at first, and is put right in the order of the refusals: 9, 1, 2, 3, 4. */
static void in_order(void)
{
    const size_t whole = TRNADULEK_MEMORY_SIZE;
    const uint8_t undefined = UNDEFINED_OPCODE;
    struct unit unit = unit_new();
    uint8_t *state = unit.state.bytes;
    memset(state, 0xFF, unit.state.count);
    unit_put(&unit, 0xFFFF, &undefined, 1);
    refused("both codes wrong", TRNADULEK_STATE_CODE, &unit, whole - 1);
    state[13] = TRNADULEK_MODE_STOPPED;
    refused("IME's code wrong", TRNADULEK_STATE_CODE, &unit, whole - 1);
    state[12] = TRNADULEK_IME_ON + 1;
    refused("IME 3", TRNADULEK_STATE_CODE, &unit, whole);
    state[12] = TRNADULEK_IME_ON;
    state[13] = TRNADULEK_MODE_STOPPED + 1;
    refused("mode 4", TRNADULEK_STATE_CODE, &unit, 0);
    state[12] = TRNADULEK_IME_OFF;
    state[13] = TRNADULEK_MODE_STOPPED;
    refused("F is $FF, and a memory of 65,535 bytes", TRNADULEK_MEMORY_LENGTH, &unit, whole - 1);
    refused("F is $FF, and no memory", TRNADULEK_MEMORY_LENGTH, &unit, 0);
    refused("F is $FF", TRNADULEK_FLAG_BITS, &unit, whole);
    state[1] = 0xF1;
    refused("F is $F1", TRNADULEK_FLAG_BITS, &unit, whole);
    state[1] = 0xF0;
    refused("Stopped", TRNADULEK_STOPPED, &unit, whole);
    state[13] = TRNADULEK_MODE_RUNNING;
    refused("an undefined opcode", TRNADULEK_UNDEFINED, &unit, whole);
    unit_release(&unit);
}

static void too_long(void)
{
    struct guarded memory = guarded_bytes(TRNADULEK_MEMORY_SIZE + 1, 0);
    struct unit unit = unit_new();
    uint8_t cycles = 0xA5;
    check_number("a memory of 65,537 bytes", TRNADULEK_MEMORY_LENGTH,
                 trnadulek_step(unit.state.bytes, memory.bytes, memory.count, &cycles));
    check_number("a memory of 65,537 bytes", 0, cycles);
    unit_check_unchanged("one byte too long", &unit);
    unit_release(&unit);
    guarded_release("beside a long memory", &memory);
}

static void every_undefined_opcode(void)
{
    static const uint8_t undefined[] = {0xD3, 0xDB, 0xDD, 0xE3, 0xE4, 0xEB, 0xEC, 0xED, 0xF4, 0xFC, 0xFD};
    struct unit unit = unit_new();
    size_t i;
    for (i = 0; i < sizeof undefined; i++) {
        unit_put(&unit, 0, &undefined[i], 1);
        refused("undefined", TRNADULEK_UNDEFINED, &unit, TRNADULEK_MEMORY_SIZE);
    }
    unit_release(&unit);
}

/* A Halted machine with nothing pending spends a cycle and changes nothing. */
static void idle(void)
{
    const struct trnadulek_cpu halted = {.pc = 0x1234, .mode = TRNADULEK_MODE_HALTED};
    struct unit unit = unit_new();
    uint8_t cycles;
    unit_set(&unit, &halted);
    unit_remember(&unit);
    check_number("idle", TRNADULEK_DONE, unit_step(&unit, &cycles));
    check_number("idle", 1, cycles);
    unit_check_unchanged("idle", &unit);
    unit_release(&unit);
}

void test_steps(void)
{
    in_order();
    too_long();
    every_undefined_opcode();
    idle();
}
