/*
 * The corners of interrupts: a HALT that its handler returns to, and a dispatch that stores over IE or IF. Every start
 * is taken three times: step by step, in one run, and as an image where it lies.
 */
#include "tests.h"

#include "unit.h"

enum { IE = 0xFFFF, IF = 0xFF0F };

/* The header's names, short enough for a table. */
enum { OFF = TRNADULEK_IME_OFF, ARMING = TRNADULEK_IME_ARMING, ON = TRNADULEK_IME_ON };
enum { RUNNING = TRNADULEK_MODE_RUNNING, REPEAT = TRNADULEK_MODE_REPEAT, HALTED = TRNADULEK_MODE_HALTED };

static const uint8_t halt = 0x76, reti = 0xD9;
static const uint8_t ei_and_halt[] = {0xFB, 0x76};

/* Where the processor is. */
struct place {
    uint16_t sp, pc;
    uint8_t ime, mode;
};

/* What a step leaves: where the processor is, what it cost, and the bytes that it stored. All else stays. */
struct left {
    const char *what;
    struct place at;
    uint8_t cycles;
    uint8_t stores;
    struct {
        uint16_t at;
        uint8_t byte;
    } store[3];
};

/* No step here changes another register, so none of them but L is 0: a loss would be seen. HL leads to a score. */
static struct trnadulek_cpu cpu_at(const struct place *place)
{
    struct trnadulek_cpu cpu = {.a = 0x11, .f = 0x10, .b = 0x22, .c = 0x33, .d = 0x44, .e = 0x55, .h = 0xC0, .l = 0x00};
    cpu.sp = place->sp;
    cpu.pc = place->pc;
    cpu.ime = place->ime;
    cpu.mode = place->mode;
    return cpu;
}

static struct unit unit_at(const struct place *place, uint8_t enabled, uint8_t raised)
{
    const struct trnadulek_cpu cpu = cpu_at(place);
    struct unit unit = unit_new();
    unit_set(&unit, &cpu);
    unit_put(&unit, IE, &enabled, 1);
    unit_put(&unit, IF, &raised, 1);
    return unit;
}

/* The processor is there, and the memory is as remembered. */
static void check_at(const char *what, const struct unit *unit, const struct place *place)
{
    const struct trnadulek_cpu expected = cpu_at(place);
    const struct trnadulek_cpu got = unit_cpu(unit);
    check_cpu(what, &expected, &got);
    check_bytes(what, unit->old_memory.bytes, unit->memory.bytes, unit->memory.count);
}

/* What is remembered of the memory follows the stores that are expected. */
static void by_steps(struct unit *unit, const struct left *lefts, size_t count)
{
    const struct left *left;
    for (left = lefts; left < lefts + count; left++) {
        uint8_t cycles, i;
        check_number(left->what, TRNADULEK_DONE, unit_step(unit, &cycles));
        check_number(left->what, left->cycles, cycles);
        for (i = 0; i < left->stores; i++) {
            unit->old_memory.bytes[left->store[i].at] = left->store[i].byte;
        }
        check_at(left->what, unit, &left->at);
    }
}

/* One run of as many cycles as the steps take ends where they do, of a state and a memory and of an image. */
static void by_runs(const char *what, struct unit *unit, struct guarded *start, const struct left *lefts, size_t count)
{
    const struct place *end = &lefts[count - 1].at;
    uint32_t cycles = 0;
    size_t i;
    for (i = 0; i < count; i++) {
        cycles += lefts[i].cycles;
    }
    unit_open(unit, start);
    check_ran(what, unit_run(unit, cycles), TRNADULEK_DONE, cycles, (uint32_t)count);
    check_at(what, unit, end);
    check_ran(what, image_run(start, start->count, cycles), TRNADULEK_DONE, cycles, (uint32_t)count);
    unit_open(unit, start);
    check_at(what, unit, end);
}

/* Takes a start in each of the three ways, and releases it. */
static void follow(const char *what, struct unit *unit, const struct left *lefts, size_t count)
{
    struct guarded start = unit_image(unit);
    unit_remember(unit);
    by_steps(unit, lefts, count);
    by_runs(what, unit, &start, lefts, count);
    guarded_release(what, &start);
    unit_release(unit);
}

/* A request that is there already is served before the HALT; the handler returns to it, and only then it halts. */
static void the_handler_returns_to_the_halt(void)
{
    static const uint8_t game[] = {0xFB, 0x76, 0x3C}; /* EI; HALT; INC A, which is not come to */
    static const uint8_t handler[] = {0x34, 0xD9};    /* INC [HL]; RETI */
    static const uint8_t score = 0x41;
    static const struct place start = {0xDFFE, 0x0150, OFF, RUNNING};
    static const struct left lefts[] = {
        {"EI", {0xDFFE, 0x0151, ARMING, RUNNING}, .cycles = 1},
        {"the HALT gives way", {0xDFFE, 0x0151, ON, RUNNING}, .cycles = 1},
        {"its address is pushed", {0xDFFC, 0x0050, OFF, RUNNING}, 5, 3, {{0xDFFD, 0x01}, {IF, 0xE0}, {0xDFFC, 0x51}}},
        {"the handler counts", {0xDFFC, 0x0051, OFF, RUNNING}, 3, 1, {{0xC000, 0x42}}},
        {"RETI to the HALT", {0xDFFE, 0x0151, ON, RUNNING}, .cycles = 4},
        {"the HALT halts", {0xDFFE, 0x0152, ON, HALTED}, .cycles = 1},
        {"and idles", {0xDFFE, 0x0152, ON, HALTED}, .cycles = 1},
    };
    struct unit unit = unit_at(&start, 0x04, 0xE4); /* the upper three bits request nothing, and stay */
    unit_put(&unit, start.pc, game, sizeof game);
    unit_put(&unit, 0x0050, handler, sizeof handler);
    unit_put(&unit, 0xC000, &score, 1);
    follow("EI, HALT, a handler", &unit, lefts, sizeof lefts / sizeof lefts[0]);
}

/* Bits 1 and 3; bit 4 is raised and not enabled. Each of the two handlers returns to the HALT. */
static void two_requests(void)
{
    static const struct place start = {0xDFFE, 0x0150, OFF, RUNNING};
    static const struct left lefts[] = {
        {"two, EI", {0xDFFE, 0x0151, ARMING, RUNNING}, .cycles = 1},
        {"two, HALT", {0xDFFE, 0x0151, ON, RUNNING}, .cycles = 1},
        {"two, the lower", {0xDFFC, 0x0048, OFF, RUNNING}, 5, 3, {{0xDFFD, 0x01}, {IF, 0x18}, {0xDFFC, 0x51}}},
        {"two, its RETI", {0xDFFE, 0x0151, ON, RUNNING}, .cycles = 4},
        {"two, the upper", {0xDFFC, 0x0058, OFF, RUNNING}, 5, 3, {{0xDFFD, 0x01}, {IF, 0x10}, {0xDFFC, 0x51}}},
        {"two, its RETI too", {0xDFFE, 0x0151, ON, RUNNING}, .cycles = 4},
        {"two, both served", {0xDFFE, 0x0152, ON, HALTED}, .cycles = 1},
    };
    struct unit unit = unit_at(&start, 0x0A, 0x1A);
    unit_put(&unit, start.pc, ei_and_halt, sizeof ei_and_halt);
    unit_put(&unit, 0x0048, &reti, 1);
    unit_put(&unit, 0x0058, &reti, 1);
    follow("two requests", &unit, lefts, sizeof lefts / sizeof lefts[0]);
}

/* In Repeat the HALT's byte is at PC as given. The RETI comes to it in Running, so that then PC moves past it. */
static void in_repeat(void)
{
    static const struct place start = {0xDFFE, 0x0151, ARMING, REPEAT};
    static const struct left lefts[] = {
        {"Repeat, HALT", {0xDFFE, 0x0151, ON, RUNNING}, .cycles = 1},
        {"Repeat, dispatch", {0xDFFC, 0x0060, OFF, RUNNING}, 5, 3, {{0xDFFD, 0x01}, {IF, 0x00}, {0xDFFC, 0x51}}},
        {"Repeat, RETI", {0xDFFE, 0x0151, ON, RUNNING}, .cycles = 4},
        {"Repeat is over", {0xDFFE, 0x0152, ON, HALTED}, .cycles = 1},
    };
    struct unit unit = unit_at(&start, 0x10, 0x10);
    unit_put(&unit, start.pc, &halt, 1);
    unit_put(&unit, 0x0060, &reti, 1);
    follow("HALT in Repeat", &unit, lefts, sizeof lefts / sizeof lefts[0]);
}

/* The HALT's byte at $FFFF is IE as well, $76, and the address after it is $0000, which is not pushed. */
static void at_the_end_of_the_memory(void)
{
    static const struct place start = {0xDFFE, 0xFFFE, OFF, RUNNING};
    static const struct left lefts[] = {
        {"$FFFF, EI before it", {0xDFFE, 0xFFFF, ARMING, RUNNING}, .cycles = 1},
        {"$FFFF, HALT", {0xDFFE, 0xFFFF, ON, RUNNING}, .cycles = 1},
        {"$FFFF, dispatch", {0xDFFC, 0x0048, OFF, RUNNING}, 5, 3, {{0xDFFD, 0xFF}, {IF, 0x00}, {0xDFFC, 0xFF}}},
        {"$FFFF, RETI", {0xDFFE, 0xFFFF, ON, RUNNING}, .cycles = 4},
        {"$FFFF, it halts", {0xDFFE, 0x0000, ON, HALTED}, .cycles = 1},
    };
    struct unit unit = unit_at(&start, 0x00, 0x02);
    unit_put(&unit, start.pc, ei_and_halt, sizeof ei_and_halt);
    unit_put(&unit, 0x0048, &reti, 1);
    follow("HALT at $FFFF", &unit, lefts, sizeof lefts / sizeof lefts[0]);
}

/* The HALT's own address is what takes its request away; the HALT at $0000 then waits with IME Off. */
static void both_corners(void)
{
    static const struct place start = {0x0000, 0x2000, OFF, RUNNING};
    static const struct left lefts[] = {
        {"both, EI", {0x0000, 0x2001, ARMING, RUNNING}, .cycles = 1},
        {"both, HALT", {0x0000, 0x2001, ON, RUNNING}, .cycles = 1},
        {"both, cancelled", {0xFFFE, 0x0000, OFF, RUNNING}, 5, 2, {{IE, 0x20}, {0xFFFE, 0x01}}},
        {"both, HALT at $0000", {0xFFFE, 0x0001, OFF, HALTED}, .cycles = 1},
    };
    struct unit unit = unit_at(&start, 0x01, 0x01);
    unit_put(&unit, start.pc, ei_and_halt, sizeof ei_and_halt);
    unit_put(&unit, 0x0000, &halt, 1);
    follow("EI, HALT, cancelled", &unit, lefts, sizeof lefts / sizeof lefts[0]);
}

/* One step, with HALT at PC. */
struct one_step {
    struct place before;
    uint8_t enabled, raised;
    struct left left;
};

/* HALT under each IME, from each mode that runs it. $1B and $E4 have no bit in common, $E0 and $E0 none that counts. */
static const struct one_step halts[] = {
    {{0xDFFE, 0x0151, ARMING, RUNNING}, 0x04, 0x04, {"HALT, Arming", {0xDFFE, 0x0151, ON, RUNNING}, .cycles = 1}},
    {{0xDFFE, 0x0151, ARMING, REPEAT}, 0x04, 0x04, {"HALT, in Repeat", {0xDFFE, 0x0151, ON, RUNNING}, .cycles = 1}},
    {{0xDFFE, 0x0151, ARMING, HALTED}, 0x04, 0x04, {"HALT, woken", {0xDFFE, 0x0151, ON, RUNNING}, .cycles = 1}},
    {{0xDFFE, 0x01FF, ARMING, RUNNING}, 0x04, 0x04, {"HALT at $01FF", {0xDFFE, 0x01FF, ON, RUNNING}, .cycles = 1}},
    {{0xDFFE, IE, ARMING, RUNNING}, 0x00, 0x02, {"HALT is IE", {0xDFFE, IE, ON, RUNNING}, .cycles = 1}},
    {{0xDFFE, IF, ARMING, RUNNING}, 0x10, 0x00, {"HALT is IF", {0xDFFE, IF, ON, RUNNING}, .cycles = 1}},
    {{0xDFFE, 0x0151, ARMING, RUNNING}, 0x1B, 0xE4, {"HALT, none", {0xDFFE, 0x0152, ON, HALTED}, .cycles = 1}},
    {{0xDFFE, 0x0151, ARMING, RUNNING}, 0xE0, 0xE0, {"HALT, upper bits", {0xDFFE, 0x0152, ON, HALTED}, .cycles = 1}},
    {{0xDFFE, 0x0151, ARMING, REPEAT}, 0x1B, 0xE4, {"HALT, Repeat, none", {0xDFFE, 0x0151, ON, HALTED}, .cycles = 1}},
    {{0xDFFE, 0x0151, OFF, RUNNING}, 0x04, 0x04, {"HALT, Off", {0xDFFE, 0x0152, OFF, REPEAT}, .cycles = 1}},
    {{0xDFFE, 0x0151, OFF, REPEAT}, 0x04, 0x04, {"HALT, Off, Repeat", {0xDFFE, 0x0151, OFF, REPEAT}, .cycles = 1}},
    {{0xDFFE, 0x0151, OFF, RUNNING}, 0x1B, 0xE4, {"HALT, Off, none", {0xDFFE, 0x0152, OFF, HALTED}, .cycles = 1}},
    {{0xDFFE, 0x0151, ON, RUNNING}, 0x1B, 0xE4, {"HALT, On, none", {0xDFFE, 0x0152, ON, HALTED}, .cycles = 1}},
};

/*
 * Dispatches whose bytes go to IE or IF. At SP 0 and $FF10 it is the high one, and what is pending then is served; at
 * SP 1 and $FF11 it is the low one, which comes too late to change that, and stays.
 */
static const struct one_step dispatches[] = {
    {{0x0000, 0x20F1, ON, RUNNING}, 0x1F, 0x1F,
     {"none is enabled by then", {0xFFFE, 0x0000, OFF, RUNNING}, 5, 2, {{IE, 0x20}, {0xFFFE, 0xF1}}}},
    {{0x0000, 0x1E34, ON, RUNNING}, 0x01, 0xE1,
     {"others are enabled by then", {0xFFFE, 0x0000, OFF, RUNNING}, 5, 2, {{IE, 0x1E}, {0xFFFE, 0x34}}}},
    {{0x0000, 0x4000, ON, HALTED}, 0x08, 0x08,
     {"cancelled from Halted", {0xFFFE, 0x0000, OFF, RUNNING}, 5, 2, {{IE, 0x40}, {0xFFFE, 0x00}}}},
    {{0x0000, 0x4000, ON, REPEAT}, 0x08, 0x08,
     {"cancelled from Repeat", {0xFFFE, 0x0000, OFF, RUNNING}, 5, 2, {{IE, 0x40}, {0xFFFE, 0x00}}}},
    {{0x0000, 0x0834, ON, RUNNING}, 0x1F, 0x1F,
     {"bit 3 for bit 0, by IE", {0xFFFE, 0x0058, OFF, RUNNING}, 5, 3, {{IE, 0x08}, {IF, 0x17}, {0xFFFE, 0x34}}}},
    {{0x0001, 0x1200, ON, RUNNING}, 0x05, 0x06,
     {"the low byte is IE", {0xFFFF, 0x0050, OFF, RUNNING}, 5, 3, {{0x0000, 0x12}, {IF, 0x02}, {IE, 0x00}}}},
    {{0xFF10, 0x1234, ON, RUNNING}, 0x1F, 0x01,
     {"bit 1 for bit 0, by IF", {0xFF0E, 0x0048, OFF, RUNNING}, 5, 2, {{IF, 0x10}, {0xFF0E, 0x34}}}},
    {{0xFF10, 0xE034, ON, RUNNING}, 0x1F, 0x1F,
     {"none is raised by then", {0xFF0E, 0x0000, OFF, RUNNING}, 5, 2, {{IF, 0xE0}, {0xFF0E, 0x34}}}},
    {{0xFF11, 0x12FF, ON, RUNNING}, 0x1F, 0x03,
     {"the low byte is IF", {0xFF0F, 0x0040, OFF, RUNNING}, 5, 2, {{0xFF10, 0x12}, {IF, 0xFF}}}},
};

static void one_by_one(const struct one_step *steps, size_t count)
{
    const struct one_step *step;
    for (step = steps; step < steps + count; step++) {
        struct unit unit = unit_at(&step->before, step->enabled, step->raised);
        unit_put(&unit, step->before.pc, &halt, 1);
        follow(step->left.what, &unit, &step->left, 1);
    }
}

void test_interrupts(void)
{
    the_handler_returns_to_the_halt();
    two_requests();
    in_repeat();
    at_the_end_of_the_memory();
    both_corners();
    one_by_one(halts, sizeof halts / sizeof halts[0]);
    one_by_one(dispatches, sizeof dispatches / sizeof dispatches[0]);
}
