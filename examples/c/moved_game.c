/*
 * A guest returns a flat unit and takes a charged one, and the saved game moves across.
 *
 * An image comes from the flat unit. It is run for a frame where it lies, saved, opened on the
 * charged unit and run on. The game adds 1 to its score in each frame.
 */
#include <trnadulek.h>

#include <stdio.h>
#include <stdlib.h>
#include <string.h>

enum {
    FRAME_CYCLES = 17556,
    SCORE = 0xC000,    /* two bytes, four decimal digits, least byte first */
    WON = 0xC100,      /* what a frame adds to it */
    REQUESTS = 0xFF0F, /* IF */
    ENABLED = 0xFFFF,  /* IE */
    NEW_FRAME = 0x01
};

/* Waits for the next frame, then calls the adding routine on the score; over and over. */
static const uint8_t game[] = {
    0x76,             /* 0100 HALT          */
    0xAF,             /* 0101 XOR A         */
    0xE0, 0x0F,       /* 0102 LDH [$FF0F],A */
    0x21, 0x00, 0xC0, /* 0104 LD HL,$C000   */
    0x11, 0x00, 0xC1, /* 0107 LD DE,$C100   */
    0x06, 0x02,       /* 010A LD B,2        */
    0xCD, 0x50, 0x01, /* 010C CALL $0150    */
    0x18, 0xEF        /* 010F JR $0100      */
};
static const uint8_t adding_routine[] = {0xA7, 0x1A, 0x8E, 0x27, 0x22, 0x13, 0x05, 0x20, 0xF8, 0xC9};

static uint8_t unit_one[TRNADULEK_IMAGE_SIZE];
static uint8_t unit_two[TRNADULEK_IMAGE_SIZE];

/* Ends the program with the words for a refusal. */
static void demand(uint8_t code)
{
    char words[TRNADULEK_LONGEST_WORDS + 1];
    if (code != TRNADULEK_DONE) {
        printf("refused with %u: %s\n", code, trnadulek_text(code, words));
        exit(1);
    }
}

/* Ends the program where the library is not the one that the header was made for. */
static void demand_same_version(void)
{
    if (trnadulek_version() != TRNADULEK_VERSION_NUMBER || trnadulek_size(1) != TRNADULEK_STATE_SIZE) {
        printf("the library is not of version %s\n", TRNADULEK_VERSION_STRING);
        exit(1);
    }
}

/* The image that the flat unit saved: the game waits for a frame, the score is 199. */
static void make_image(uint8_t *image)
{
    static uint8_t memory[TRNADULEK_MEMORY_SIZE];
    uint8_t state[TRNADULEK_STATE_SIZE];
    const struct trnadulek_cpu cpu = {.sp = 0xDFFE, .pc = 0x0101, .mode = TRNADULEK_MODE_HALTED};
    memcpy(memory + 0x0100, game, sizeof game);
    memcpy(memory + 0x0150, adding_routine, sizeof adding_routine);
    memcpy(memory + SCORE, "\x99\x01", 2);
    memcpy(memory + WON, "\x01\x00", 2);
    memory[ENABLED] = NEW_FRAME;
    trnadulek_state_of_cpu(&cpu, state);
    demand(trnadulek_save_image(state, memory, sizeof memory, image, TRNADULEK_IMAGE_SIZE));
}

static void show_score(const char *unit, const uint8_t *image)
{
    const uint8_t *score = image + TRNADULEK_HEAD_SIZE + SCORE;
    printf("%s: score %X%02X\n", unit, score[1], score[0]);
}

/* A frame: the game is told of it, and gets its cycles. The image is run where it lies, and stays whole in any case. */
static void run_frame(uint8_t *image)
{
    uint32_t spent, steps;
    image[TRNADULEK_HEAD_SIZE + REQUESTS] |= NEW_FRAME;
    demand(trnadulek_run_image(image, TRNADULEK_IMAGE_SIZE, FRAME_CYCLES, &spent, &steps));
    printf("  a frame: %lu cycles, %lu steps\n", (unsigned long)spent, (unsigned long)steps);
}

int main(void)
{
    uint8_t state[TRNADULEK_STATE_SIZE];

    demand_same_version();
    make_image(unit_one);
    show_score("flat unit", unit_one);
    run_frame(unit_one);
    show_score("flat unit", unit_one);

    /* The image is all there is to move. The charged unit opens it before it goes on. */
    memcpy(unit_two, unit_one, TRNADULEK_IMAGE_SIZE);
    demand(trnadulek_open_image(unit_two, TRNADULEK_IMAGE_SIZE, state));
    show_score("charged unit", unit_two);
    run_frame(unit_two);
    show_score("charged unit", unit_two);
    return 0;
}
