/* The twelve cases of docs/machine.md, each as one step. */
#include "tests.h"

#include "unit.h"

struct one_case {
    const char *name;
    struct trnadulek_cpu before;
    uint8_t code[2]; /* at PC */
    struct trnadulek_cpu after;
    uint8_t cycles;
};

static const struct one_case cases[] = {
    {"1, ADD", {.a = 0x3A, .pc = 0x100}, {0xC6, 0xC6}, {.a = 0x00, .f = 0xB0, .pc = 0x102}, 2},
    {"2, ADC", {.a = 0x0F, .f = 0x10, .pc = 0x100}, {0xCE, 0x00}, {.a = 0x10, .f = 0x20, .pc = 0x102}, 2},
    {"3, SUB", {.a = 0x00, .pc = 0x100}, {0xD6, 0x01}, {.a = 0xFF, .f = 0x70, .pc = 0x102}, 2},
    {"4, SBC", {.a = 0x3B, .f = 0x10, .pc = 0x100}, {0xDE, 0x2A}, {.a = 0x10, .f = 0x40, .pc = 0x102}, 2},
    {"5, INC", {.a = 0xFF, .f = 0x10, .pc = 0x100}, {0x3C, 0x00}, {.a = 0x00, .f = 0xB0, .pc = 0x101}, 1},
    {"6, ADD HL",
     {.b = 0x06, .c = 0x05, .h = 0x8A, .l = 0x23, .f = 0x80, .pc = 0x100},
     {0x09, 0x00},
     {.b = 0x06, .c = 0x05, .h = 0x90, .l = 0x28, .f = 0xA0, .pc = 0x101},
     2},
    {"7, ADD SP", {.sp = 1, .pc = 0x100}, {0xE8, 0xFF}, {.sp = 0, .f = 0x30, .pc = 0x102}, 4},
    {"8, DAA", {.a = 0x9A, .pc = 0x100}, {0x27, 0x00}, {.a = 0x00, .f = 0x90, .pc = 0x101}, 1},
    {"9, DAA", {.a = 0xFF, .f = 0x70, .pc = 0x100}, {0x27, 0x00}, {.a = 0x99, .f = 0x50, .pc = 0x101}, 1},
    {"11, JR", {.pc = 0xFFFE}, {0x18, 0x02}, {.pc = 0x0002}, 3},
};

/* One step of an instruction that stores nothing. */
static void run_case(const struct one_case *c)
{
    struct unit unit = unit_new();
    struct trnadulek_cpu got;
    uint8_t cycles;
    unit_set(&unit, &c->before);
    unit_put(&unit, c->before.pc, c->code, 2);
    unit_remember(&unit);
    check_number(c->name, TRNADULEK_DONE, unit_step(&unit, &cycles));
    check_number(c->name, c->cycles, cycles);
    got = unit_cpu(&unit);
    check_cpu(c->name, &c->after, &got);
    check_bytes(c->name, unit.old_memory.bytes, unit.memory.bytes, unit.memory.count);
    unit_release(&unit);
}

static void case_10_pop_af(void)
{
    static const uint8_t stack[] = {0xFF, 0x12};
    static const uint8_t pop_af = 0xF1;
    const struct trnadulek_cpu before = {.sp = 0xD000, .pc = 0x100};
    const struct trnadulek_cpu after = {.a = 0x12, .f = 0xF0, .sp = 0xD002, .pc = 0x101};
    struct unit unit = unit_new();
    struct trnadulek_cpu got;
    uint8_t cycles;
    unit_set(&unit, &before);
    unit_put(&unit, before.pc, &pop_af, 1);
    unit_put(&unit, before.sp, stack, 2);
    check_number("10, POP AF", TRNADULEK_DONE, unit_step(&unit, &cycles));
    check_number("10, POP AF", 3, cycles);
    got = unit_cpu(&unit);
    check_cpu("10, POP AF", &after, &got);
    unit_release(&unit);
}

static void case_12_dispatch(void)
{
    static const uint8_t enabled = 5, raised = 6, left = 2;
    static const uint8_t pushed[] = {0x23, 0xC1};
    const struct trnadulek_cpu before = {.sp = 0xFFFE, .pc = 0xC123, .ime = TRNADULEK_IME_ON};
    const struct trnadulek_cpu after = {.sp = 0xFFFC, .pc = 0x0050, .ime = TRNADULEK_IME_OFF};
    struct unit unit = unit_new();
    struct trnadulek_cpu got;
    uint8_t cycles;
    unit_set(&unit, &before);
    unit_put(&unit, 0xFFFF, &enabled, 1);
    unit_put(&unit, 0xFF0F, &raised, 1);
    unit_remember(&unit);
    check_number("12, dispatch", TRNADULEK_DONE, unit_step(&unit, &cycles));
    check_number("12, dispatch", 5, cycles);
    got = unit_cpu(&unit);
    check_cpu("12, dispatch", &after, &got);
    unit.old_memory.bytes[0xFF0F] = left;
    unit.old_memory.bytes[0xFFFC] = pushed[0];
    unit.old_memory.bytes[0xFFFD] = pushed[1];
    check_bytes("12, dispatch", unit.old_memory.bytes, unit.memory.bytes, unit.memory.count);
    unit_release(&unit);
}

void test_cases(void)
{
    size_t i;
    for (i = 0; i < sizeof cases / sizeof cases[0]; i++) {
        run_case(&cases[i]);
    }
    case_10_pop_af();
    case_12_dispatch();
}
