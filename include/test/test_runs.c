/* The worked example, the counts of a run, and what a run refuses. */
#include "tests.h"

#include "unit.h"

#include <string.h>

static void worked_example(void)
{
    struct unit unit = unit_adding();
    check_ran("the worked example", unit_run(&unit, 30), TRNADULEK_DONE, 30, 16);
    unit_check_added("the worked example", &unit);
    unit_release(&unit);
}

/* The same budget in slices of one cycle, and step by step. */
static void sliced(void)
{
    struct unit unit = unit_adding();
    uint32_t spent = 0;
    uint32_t steps = 0;
    while (spent < 30) {
        struct ran ran = unit_run(&unit, 1);
        check_number("a slice", TRNADULEK_DONE, ran.code);
        spent += ran.spent;
        steps += ran.steps;
    }
    check_number("sliced", 30, spent);
    check_number("sliced", 16, steps);
    unit_check_added("sliced", &unit);
    unit_release(&unit);
}

static void by_steps(void)
{
    struct unit unit = unit_adding();
    uint32_t spent = 0;
    uint32_t steps;
    for (steps = 0; steps < 16; steps++) {
        uint8_t cycles;
        check_number("a step", TRNADULEK_DONE, unit_step(&unit, &cycles));
        spent += cycles;
    }
    check_number("by steps", 30, spent);
    unit_check_added("by steps", &unit);
    unit_release(&unit);
}

static void no_budget(void)
{
    const struct trnadulek_cpu stopped = {.mode = TRNADULEK_MODE_STOPPED};
    struct unit unit = unit_new();
    check_ran("budget 0", unit_run(&unit, 0), TRNADULEK_DONE, 0, 0);
    unit_set(&unit, &stopped);
    unit_remember(&unit);
    check_ran("budget 0, Stopped", unit_run(&unit, 0), TRNADULEK_DONE, 0, 0);
    unit_check_unchanged("budget 0, Stopped", &unit);
    unit_release(&unit);
}

/* A memory of zeros is 65,536 times NOP, a cycle each. */
static void largest_budget(void)
{
    struct unit unit = unit_new();
    check_ran("budget 1,048,576", unit_run(&unit, TRNADULEK_LARGEST_BUDGET), TRNADULEK_DONE, 1048576, 1048576);
    unit_check_unchanged("budget 1,048,576", &unit);
    check_ran("budget 1,048,577", unit_run(&unit, TRNADULEK_LARGEST_BUDGET + 1), TRNADULEK_BUDGET, 0, 0);
    check_ran("budget 4,294,967,295", unit_run(&unit, UINT32_MAX), TRNADULEK_BUDGET, 0, 0);
    unit_check_unchanged("budget 1,048,577", &unit);
    unit_release(&unit);
}

/* CALL costs 6: a budget of 1 is overspent by 5. */
static void largest_excess(void)
{
    static const uint8_t call[] = {0xCD, 0x34, 0x12};
    const struct trnadulek_cpu before = {.sp = 0xD000};
    const struct trnadulek_cpu after = {.sp = 0xCFFE, .pc = 0x1234};
    struct unit unit = unit_new();
    struct trnadulek_cpu got;
    unit_set(&unit, &before);
    unit_put(&unit, 0, call, sizeof call);
    check_ran("CALL", unit_run(&unit, 1), TRNADULEK_DONE, 1 + TRNADULEK_LARGEST_EXCESS, 1);
    got = unit_cpu(&unit);
    check_cpu("CALL", &after, &got);
    unit_release(&unit);
}

/* Steps before a refused one stay, and are counted. */
static void ended_by_undefined(void)
{
    static const uint8_t code[] = {0x3E, 0x07, 0x3C, 0xD3}; /* LD A,7; INC A; undefined */
    const struct trnadulek_cpu after = {.a = 8, .pc = 3};
    struct unit unit = unit_new();
    struct trnadulek_cpu got;
    unit_put(&unit, 0, code, sizeof code);
    unit_remember(&unit);
    check_ran("ended by 4", unit_run(&unit, 100), TRNADULEK_UNDEFINED, 3, 2);
    got = unit_cpu(&unit);
    check_cpu("ended by 4", &after, &got);
    check_bytes("ended by 4", unit.old_memory.bytes, unit.memory.bytes, unit.memory.count);
    unit_remember(&unit);
    check_ran("refused by 4 at once", unit_run(&unit, 100), TRNADULEK_UNDEFINED, 0, 0);
    unit_check_unchanged("refused by 4 at once", &unit);
    unit_release(&unit);
}

static void ended_by_stop(void)
{
    static const uint8_t code[] = {0x36, 0x07, 0x10, 0xD3}; /* LD [HL],7; STOP, whose second byte is ignored */
    const struct trnadulek_cpu before = {.h = 0xC0};
    const struct trnadulek_cpu after = {.h = 0xC0, .pc = 4, .mode = TRNADULEK_MODE_STOPPED};
    struct unit unit = unit_new();
    struct trnadulek_cpu got;
    unit_set(&unit, &before);
    unit_put(&unit, 0, code, sizeof code);
    unit_remember(&unit);
    check_ran("ended by 3", unit_run(&unit, 100), TRNADULEK_STOPPED, 4, 2);
    got = unit_cpu(&unit);
    check_cpu("ended by 3", &after, &got);
    unit.old_memory.bytes[0xC000] = 7;
    check_bytes("ended by 3", unit.old_memory.bytes, unit.memory.bytes, unit.memory.count);
    unit_release(&unit);
}

static void refused(const char *what, uint8_t code, struct unit *unit, size_t memory_len, uint32_t budget)
{
    struct ran ran = {0xA5, 0xA5A5A5A5, 0x5A5A5A5A};
    unit_remember(unit);
    ran.code = trnadulek_run(unit->state.bytes, unit->memory.bytes, memory_len, budget, &ran.spent, &ran.steps);
    check_ran(what, ran, code, 0, 0);
    unit_check_unchanged(what, unit);
}

/* Everything is wrong at first, and is put right in the order of the refusals: 9, 1, 2, 5, 3, 4. */
static void in_order(void)
{
    const size_t whole = TRNADULEK_MEMORY_SIZE;
    const uint32_t large = TRNADULEK_LARGEST_BUDGET + 1;
    const uint8_t undefined = 0xFD;
    struct unit unit = unit_new();
    uint8_t *state = unit.state.bytes;
    memset(state, 0xFF, unit.state.count);
    unit_put(&unit, 0xFFFF, &undefined, 1);
    refused("both codes wrong", TRNADULEK_STATE_CODE, &unit, whole - 1, large);
    state[12] = TRNADULEK_IME_OFF;
    refused("the mode's code wrong", TRNADULEK_STATE_CODE, &unit, whole - 1, large);
    state[13] = TRNADULEK_MODE_STOPPED;
    refused("F is $FF, and a memory of 65,535 bytes", TRNADULEK_MEMORY_LENGTH, &unit, whole - 1, large);
    refused("F is $FF, and no memory", TRNADULEK_MEMORY_LENGTH, &unit, 0, large);
    refused("F is $FF", TRNADULEK_FLAG_BITS, &unit, whole, large);
    refused("F is $FF, also with budget 0", TRNADULEK_FLAG_BITS, &unit, whole, 0);
    state[1] = 0x00;
    refused("a large budget", TRNADULEK_BUDGET, &unit, whole, large);
    refused("Stopped", TRNADULEK_STOPPED, &unit, whole, large - 1);
    state[13] = TRNADULEK_MODE_HALTED;
    state[12] = TRNADULEK_IME_OFF;
    unit.memory.bytes[0xFF0F] = 0x1F; /* and IE is $FD: a request ends the halt */
    refused("an undefined opcode", TRNADULEK_UNDEFINED, &unit, whole, large - 1);
    unit_release(&unit);
}

void test_runs(void)
{
    worked_example();
    sliced();
    by_steps();
    no_budget();
    largest_budget();
    largest_excess();
    ended_by_undefined();
    ended_by_stop();
    in_order();
}
