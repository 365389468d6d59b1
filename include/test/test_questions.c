#include "tests.h"

#include "../trnadulek.h"
#include "check.h"

#include <stdio.h>
#include <string.h>

/* The header says its version in three ways, and the library says the same. */
static void version(void)
{
    const unsigned number =
        TRNADULEK_VERSION_MAJOR * 10000 + TRNADULEK_VERSION_MINOR * 100 + TRNADULEK_VERSION_PATCH;
    char text[32];
    snprintf(text, sizeof text, "%d.%d.%d", TRNADULEK_VERSION_MAJOR, TRNADULEK_VERSION_MINOR, TRNADULEK_VERSION_PATCH);
    check_number("version", number, TRNADULEK_VERSION_NUMBER);
    check_number("version", TRNADULEK_VERSION_NUMBER, trnadulek_version());
    check_number("version as text", 0, strcmp(text, TRNADULEK_VERSION_STRING) != 0);
}

static void sizes(void)
{
    check_number("size of a head", TRNADULEK_HEAD_SIZE, trnadulek_size(0));
    check_number("size of a state block", TRNADULEK_STATE_SIZE, trnadulek_size(1));
    check_number("size of the memory", TRNADULEK_MEMORY_SIZE, trnadulek_size(2));
    check_number("size of an image", TRNADULEK_IMAGE_SIZE, trnadulek_size(3));
    check_number("the largest budget", TRNADULEK_LARGEST_BUDGET, trnadulek_size(4));
    check_number("text for each byte listed", TRNADULEK_LISTING_PER_BYTE, trnadulek_size(5));
    check_number("no size 6", 0, trnadulek_size(6));
    check_number("no size 4,294,967,295", 0, trnadulek_size(UINT32_MAX));
}

/* Room is less, as much as and more than the words need: all or nothing is written, and nothing behind them. */
static void words_with_room(uint8_t code, const char *words, size_t room)
{
    size_t length = strlen(words);
    struct guarded out = guarded_bytes(room, '.');
    struct guarded expected = guarded_bytes(room, '.');
    if (length <= room) {
        memcpy(expected.bytes, words, length);
    }
    check_number(words, length, trnadulek_words(code, out.bytes, out.count));
    check_bytes(words, expected.bytes, out.bytes, room);
    guarded_release(words, &out);
    guarded_release(words, &expected);
}

/* The words as a string, and nothing behind its closing zero. */
static void text_of(uint8_t code, const char *words)
{
    char text[TRNADULEK_LONGEST_WORDS + 1];
    size_t length = strlen(words);
    memset(text, '.', sizeof text);
    check_number("the text is what was lent", 1, trnadulek_text(code, text) == text);
    check_number(words, 0, strcmp(words, text) != 0);
    check_number(words, 1, length == TRNADULEK_LONGEST_WORDS || text[length + 1] == '.');
}

static void words_of(uint8_t code, const char *words)
{
    size_t length = strlen(words);
    text_of(code, words);
    check_number("length of the words", 1, length <= TRNADULEK_LONGEST_WORDS);
    words_with_room(code, words, 0);
    words_with_room(code, words, length - 1);
    words_with_room(code, words, length);
    words_with_room(code, words, length + 1);
    words_with_room(code, words, TRNADULEK_LONGEST_WORDS);
}

static void words(void)
{
    unsigned code;
    words_of(TRNADULEK_DONE, "done");
    words_of(TRNADULEK_MEMORY_LENGTH, "memory length is not 65,536");
    words_of(TRNADULEK_FLAG_BITS, "low four bits of F are not 0");
    words_of(TRNADULEK_STOPPED, "mode is Stopped when a step is due");
    words_of(TRNADULEK_UNDEFINED, "the step would run an undefined opcode");
    words_of(TRNADULEK_BUDGET, "budget above 1,048,576");
    words_of(TRNADULEK_LENGTH, "head, image or output slice of wrong length");
    words_of(TRNADULEK_SAVED_VERSION, "version byte is not 1");
    words_of(TRNADULEK_BLOCK_LENGTH, "a block length is not 14, or not 65,536");
    words_of(TRNADULEK_STATE_CODE, "IME code above 2, or mode code above 3");
    words_of(TRNADULEK_ROOM, "output too short");
    words_of(TRNADULEK_EDITION, "edition number is neither 1 nor 2");
    words_of(TRNADULEK_LINE, "a line of no such form");
    words_of(TRNADULEK_NESTING, "nesting deeper than 16");
    words_of(TRNADULEK_RANGE, "number or value out of range");
    for (code = TRNADULEK_RANGE + 1; code <= UINT8_MAX; code++) {
        words_with_room((uint8_t)code, "", 50);
        text_of((uint8_t)code, "");
    }
}

struct row {
    const char *name;
    uint32_t row;
    uint8_t length;
    uint8_t cycles;
};

static void table(void)
{
    static const struct row rows[] = {
        {"NOP", 0x00, 1, 1},
        {"LD BC,n16", 0x01, 3, 3},
        {"LD [n16],SP", 0x08, 3, 5},
        {"STOP", 0x10, 2, 1},
        {"JR", 0x18, 2, 3},
        {"JR NZ", 0x20, 2, 2},
        {"INC [HL]", 0x34, 1, 3},
        {"LD [HL],n8", 0x36, 2, 3},
        {"HALT", 0x76, 1, 1},
        {"ADD A,[HL]", 0x86, 1, 2},
        {"RET NZ", 0xC0, 1, 2},
        {"JP NZ", 0xC2, 3, 3},
        {"CALL NZ", 0xC4, 3, 3},
        {"RET", 0xC9, 1, 4},
        {"the prefix", 0xCB, 0, 0},
        {"CALL", 0xCD, 3, 6},
        {"undefined $D3", 0xD3, 0, 0},
        {"undefined $DB", 0xDB, 0, 0},
        {"undefined $DD", 0xDD, 0, 0},
        {"LDH [n16],A", 0xE0, 2, 3},
        {"undefined $E3", 0xE3, 0, 0},
        {"undefined $E4", 0xE4, 0, 0},
        {"ADD SP,e8", 0xE8, 2, 4},
        {"undefined $EB", 0xEB, 0, 0},
        {"undefined $EC", 0xEC, 0, 0},
        {"undefined $ED", 0xED, 0, 0},
        {"undefined $F4", 0xF4, 0, 0},
        {"LD HL,SP+e8", 0xF8, 2, 3},
        {"undefined $FC", 0xFC, 0, 0},
        {"undefined $FD", 0xFD, 0, 0},
        {"RST $38", 0xFF, 1, 4},
        {"RLC B", 256 + 0x00, 2, 2},
        {"RLC [HL]", 256 + 0x06, 2, 4},
        {"BIT 0,[HL]", 256 + 0x46, 2, 3},
        {"SET 7,A", 256 + 0xFF, 2, 2},
        {"row 512", 512, 0, 0},
        {"row 4,294,967,295", UINT32_MAX, 0, 0},
    };
    size_t i;
    for (i = 0; i < sizeof rows / sizeof rows[0]; i++) {
        check_number(rows[i].name, rows[i].length, trnadulek_length(rows[i].row));
        check_number(rows[i].name, rows[i].cycles, trnadulek_untaken_cycles(rows[i].row));
    }
}

void test_questions(void)
{
    version();
    sizes();
    words();
    table();
}
