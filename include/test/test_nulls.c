/* Where a length is 0 the pointer may be NULL: every call is answered as with any empty slice. */
#include "tests.h"

#include "unit.h"

static void steps_and_runs(void)
{
    struct unit unit = unit_new();
    struct ran ran = {0xA5, 0xA5A5A5A5, 0x5A5A5A5A};
    uint8_t cycles = 0xA5;
    check_number("step, no memory", TRNADULEK_MEMORY_LENGTH, trnadulek_step(unit.state.bytes, NULL, 0, &cycles));
    check_number("step, no memory", 0, cycles);
    ran.code = trnadulek_run(unit.state.bytes, NULL, 0, 1, &ran.spent, &ran.steps);
    check_ran("run, no memory", ran, TRNADULEK_MEMORY_LENGTH, 0, 0);
    ran.spent = 0xA5A5A5A5;
    ran.steps = 0x5A5A5A5A;
    ran.code = trnadulek_run_image(NULL, 0, 1, &ran.spent, &ran.steps);
    check_ran("run, no image", ran, TRNADULEK_LENGTH, 0, 0);
    unit_check_unchanged("nothing lent", &unit);
    unit_release(&unit);
}

static void loads_and_saves(void)
{
    static const uint8_t zeros[TRNADULEK_STATE_SIZE];
    struct unit unit = unit_new();
    struct guarded image = guarded_bytes(TRNADULEK_IMAGE_SIZE, 0xA5);
    struct guarded before = guarded_bytes(TRNADULEK_IMAGE_SIZE, 0xA5);
    struct guarded state = guarded_bytes(TRNADULEK_STATE_SIZE, 0xA5);
    check_number("load, no head", TRNADULEK_LENGTH, trnadulek_load_head(NULL, 0, state.bytes));
    check_bytes("load, no head", zeros, state.bytes, state.count);
    state.bytes[0] = 0xA5;
    check_number("open, no image", TRNADULEK_LENGTH, trnadulek_open_image(NULL, 0, state.bytes));
    check_bytes("open, no image", zeros, state.bytes, state.count);
    check_number("save, no head", TRNADULEK_LENGTH, trnadulek_save_head(zeros, NULL, 0));
    check_number("save, no image", TRNADULEK_LENGTH,
                 trnadulek_save_image(zeros, unit.memory.bytes, unit.memory.count, NULL, 0));
    check_number("save, no memory and no image", TRNADULEK_LENGTH, trnadulek_save_image(zeros, NULL, 0, NULL, 0));
    check_number("save, no memory", TRNADULEK_MEMORY_LENGTH,
                 trnadulek_save_image(zeros, NULL, 0, image.bytes, image.count));
    check_bytes("save, no memory", before.bytes, image.bytes, image.count);
    guarded_release("beside an image", &image);
    guarded_release("beside an old image", &before);
    guarded_release("beside a state", &state);
    unit_release(&unit);
}

struct refusals {
    uint8_t of_nothing; /* with no part: of no room, and of some */
    uint8_t of_a_byte;  /* with a part: of no room */
};

/* A listing with nothing lent, with room alone, and with a part alone. No text comes of any. */
static void listings_in(uint32_t edition, struct refusals expected)
{
    struct guarded part = guarded_bytes(1, 0xC9);
    struct guarded out = guarded_bytes(3, 0xA5);
    struct guarded before = guarded_bytes(3, 0xA5);
    size_t length = 0xA5A5;
    check_number("list, no part and no room", expected.of_nothing,
                 trnadulek_list(NULL, 0, 0x0150, edition, NULL, 0, &length));
    check_number("list, no part and no room", 0, length);
    length = 0xA5A5;
    check_number("list, no part", expected.of_nothing,
                 trnadulek_list(NULL, 0, 0x0150, edition, out.bytes, out.count, &length));
    check_number("list, no part", 0, length);
    length = 0xA5A5;
    check_number("list, no room", expected.of_a_byte,
                 trnadulek_list(part.bytes, part.count, 0x0150, edition, NULL, 0, &length));
    check_number("list, no room", 0, length);
    check_bytes("list, no part", before.bytes, out.bytes, out.count);
    guarded_release("beside a part", &part);
    guarded_release("beside a text", &out);
    guarded_release("beside an old text", &before);
}

/* Nothing to list needs no room, and a byte does; an edition that there is not is refused before either. */
static void listings(void)
{
    static const struct refusals of_an_edition = {TRNADULEK_DONE, TRNADULEK_ROOM};
    static const struct refusals of_none = {TRNADULEK_EDITION, TRNADULEK_EDITION};
    listings_in(TRNADULEK_EDITION_OLD, of_an_edition);
    listings_in(TRNADULEK_EDITION_NEW, of_an_edition);
    listings_in(0, of_none);
    listings_in(3, of_none);
    listings_in(256 + 1, of_none);
    listings_in(65536 + 1, of_none);
    listings_in(UINT32_MAX, of_none);
}

/* An empty text is done with no room at all; a line needs room, and its form is judged before that. */
static void assemblies(void)
{
    static const uint8_t line[] = "RET\n", cut[] = "RET";
    struct guarded out = guarded_bytes(3, 0xA5);
    struct guarded before = guarded_bytes(3, 0xA5);
    size_t fault = 0xA5A5, length = 0xA5A5;
    check_number("assemble, no text and no room", TRNADULEK_DONE,
                 trnadulek_assemble(NULL, 0, 0x0150, NULL, 0, &fault, &length));
    check_number("assemble, no text and no room", 0, fault);
    check_number("assemble, no text and no room", 0, length);
    fault = length = 0xA5A5;
    check_number("assemble, no text", TRNADULEK_DONE,
                 trnadulek_assemble(NULL, 0, 0x0150, out.bytes, out.count, &fault, &length));
    check_number("assemble, no text", 0, fault);
    check_number("assemble, no text", 0, length);
    check_bytes("assemble, no text", before.bytes, out.bytes, out.count);
    length = 0xA5A5;
    check_number("assemble, no room", TRNADULEK_ROOM,
                 trnadulek_assemble(line, sizeof line - 1, 0x0150, NULL, 0, &fault, &length));
    check_number("assemble, no room", 1, fault);
    check_number("assemble, no room", 0, length);
    length = 0xA5A5;
    check_number("assemble, no line feed and no room", TRNADULEK_LINE,
                 trnadulek_assemble(cut, sizeof cut - 1, 0x0150, NULL, 0, &fault, &length));
    check_number("assemble, no line feed and no room", 1, fault);
    check_number("assemble, no line feed and no room", 0, length);
    guarded_release("beside bytes", &out);
    guarded_release("beside old bytes", &before);
}

/* How long the words are can be asked with no room at all. */
static void words(void)
{
    check_number("words, no room", 4, trnadulek_words(TRNADULEK_DONE, NULL, 0));
    check_number("words, no room", TRNADULEK_LONGEST_WORDS, trnadulek_words(TRNADULEK_LENGTH, NULL, 0));
    check_number("no words, no room", 0, trnadulek_words(200, NULL, 0));
}

void test_nulls(void)
{
    steps_and_runs();
    loads_and_saves();
    listings();
    assemblies();
    words();
}
