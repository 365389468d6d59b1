/* An image that is run where it lies: head and memory stay together, whatever the run answers. */
#include "tests.h"

#include "unit.h"

#include <string.h>

/* The image after a run is the one that a save of the same run's state and memory writes. */
static void same_as_saved(const char *what, struct unit *unit, uint32_t budget)
{
    struct guarded image = unit_image(unit);
    struct ran ran = image_run(&image, image.count, budget);
    struct ran apart = unit_run(unit, budget);
    struct guarded saved = unit_image(unit);
    check_ran(what, ran, apart.code, apart.spent, apart.steps);
    check_bytes(what, saved.bytes, image.bytes, image.count);
    guarded_release(what, &image);
    guarded_release(what, &saved);
}

static void worked_example(void)
{
    struct unit unit = unit_adding();
    struct guarded image = unit_image(&unit);
    check_ran("an image", image_run(&image, image.count, 30), TRNADULEK_DONE, 30, 16);
    unit_open(&unit, &image);
    unit_check_added("an image", &unit);
    guarded_release("beside an image", &image);
    unit_release(&unit);
}

/*
 * A game that counts its score to 2 and stops. It is run three times where it
 * lies: the steps are taken once, and the head says so.
 */
static void stopped_game_does_not_tear(void)
{
    static const uint8_t game[] = {0x21, 0x00, 0xC0, 0x34, 0x34, 0x10, 0x00}; /* LD HL,$C000; INC [HL] twice; STOP */
    const struct trnadulek_cpu start = {.pc = 0x0100};
    const struct trnadulek_cpu stopped = {.h = 0xC0, .pc = 0x0107, .mode = TRNADULEK_MODE_STOPPED};
    struct unit unit = unit_new();
    struct trnadulek_cpu got;
    struct guarded image;
    int time;
    unit_set(&unit, &start);
    unit_put(&unit, 0x0100, game, sizeof game);
    image = unit_image(&unit);
    unit.memory.bytes[0xC000] = 2;
    check_ran("the game stops", image_run(&image, image.count, 17556), TRNADULEK_STOPPED, 10, 4);
    for (time = 0; time < 3; time++) {
        check_number("the game is whole", TRNADULEK_DONE, trnadulek_open_cpu(image.bytes, image.count, &got));
        check_cpu("the game stays at the STOP's end", &stopped, &got);
        check_bytes("the score stays 2", unit.memory.bytes, image.bytes + TRNADULEK_HEAD_SIZE, unit.memory.count);
        check_ran("the game stays stopped", image_run(&image, image.count, 17556), TRNADULEK_STOPPED, 0, 0);
    }
    guarded_release("beside a game", &image);
    unit_release(&unit);
}

/* Runs that end with 0, 3 and 4, and a budget of 0. */
static void as_a_save_would(void)
{
    static const uint8_t lost[] = {0x3E, 0x07, 0xE0, 0x80, 0xFD}; /* LD A,7; LDH [$FF80],A; undefined */
    static const uint8_t stops[] = {0x3E, 0x07, 0xE0, 0x80, 0x10};
    struct unit unit = unit_adding();
    same_as_saved("as a save, budget 0", &unit, 0);
    same_as_saved("as a save, in the middle", &unit, 17);
    same_as_saved("as a save, to the end", &unit, 13);
    unit_put(&unit, 0x1234, lost, sizeof lost);
    same_as_saved("as a save, ended by 4", &unit, 100);
    same_as_saved("as a save, refused by 4 at once", &unit, 100);
    unit_put(&unit, 0x1238, stops, sizeof stops);
    same_as_saved("as a save, ended by 3", &unit, 100);
    same_as_saved("as a save, Stopped and budget 0", &unit, 0);
    unit_release(&unit);
}

/* A refused image: the number, no counts, and every byte as it was. */
static void refused(const char *what, uint8_t code, struct guarded *image, size_t length, uint32_t budget)
{
    struct guarded before = guarded_bytes(image->count, 0);
    memcpy(before.bytes, image->bytes, image->count);
    check_ran(what, image_run(image, length, budget), code, 0, 0);
    check_bytes(what, before.bytes, image->bytes, image->count);
    guarded_release(what, &before);
}

/* Everything is wrong at first, and is put right in the order of the refusals: 6, 7, 8, 9, 2, 5, 3, 4. */
static void in_order(void)
{
    const size_t whole = TRNADULEK_IMAGE_SIZE;
    const uint32_t large = TRNADULEK_LARGEST_BUDGET + 1;
    struct guarded image = guarded_bytes(whole + 1, 0xFD); /* an undefined opcode everywhere */
    uint8_t *head = image.bytes;
    memset(head, 0xFF, TRNADULEK_HEAD_SIZE);
    refused("no image", TRNADULEK_LENGTH, &image, 0, large);
    refused("a head alone", TRNADULEK_LENGTH, &image, TRNADULEK_HEAD_SIZE, large);
    refused("an image of 65,558 bytes", TRNADULEK_LENGTH, &image, whole - 1, large);
    refused("an image of 65,560 bytes", TRNADULEK_LENGTH, &image, whole + 1, large);
    refused("version 255", TRNADULEK_SAVED_VERSION, &image, whole, large);
    head[0] = 1;
    refused("both lengths wrong", TRNADULEK_BLOCK_LENGTH, &image, whole, large);
    memcpy(head + 1, "\0\0\0\16", 4);
    refused("the memory's length wrong", TRNADULEK_BLOCK_LENGTH, &image, whole, large);
    memcpy(head + 19, "\0\1\0\0", 4);
    refused("both codes wrong", TRNADULEK_STATE_CODE, &image, whole, large);
    head[17] = TRNADULEK_IME_OFF;
    refused("the mode's code wrong", TRNADULEK_STATE_CODE, &image, whole, large);
    head[18] = TRNADULEK_MODE_STOPPED;
    refused("F is $FF", TRNADULEK_FLAG_BITS, &image, whole, large);
    refused("F is $FF, also with budget 0", TRNADULEK_FLAG_BITS, &image, whole, 0);
    head[6] = 0xF0;
    refused("a large budget", TRNADULEK_BUDGET, &image, whole, large);
    refused("Stopped", TRNADULEK_STOPPED, &image, whole, large - 1);
    head[18] = TRNADULEK_MODE_RUNNING;
    refused("an undefined opcode", TRNADULEK_UNDEFINED, &image, whole, large - 1);
    guarded_release("beside an image", &image);
}

void test_images(void)
{
    worked_example();
    stopped_game_does_not_tear();
    as_a_save_would();
    in_order();
}
