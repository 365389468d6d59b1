/* How much stack the calls need: each is made on a stack of its own that is
 * painted before, and the paint that is gone after it is counted. */
#define _XOPEN_SOURCE 700

#include "trnadulek.h"

#include <stdio.h>
#include <string.h>
#include <ucontext.h>

enum { STACK_SIZE = 65536, PAINT = 0xA5, MOST = 1024, MOST_TO_ASSEMBLE = 4096, DEEPEST = 16 };

static uint8_t stack[STACK_SIZE];
static uint8_t head[TRNADULEK_HEAD_SIZE];
static uint8_t memory[TRNADULEK_MEMORY_SIZE];
static uint8_t image[TRNADULEK_IMAGE_SIZE];
static uint8_t state[TRNADULEK_STATE_SIZE];
static uint8_t part[TRNADULEK_MEMORY_SIZE];
static uint8_t text[TRNADULEK_MEMORY_SIZE * TRNADULEK_LISTING_PER_BYTE];
static ucontext_t here;

static void nothing(void) {}

static void run(void)
{
    uint32_t spent, steps;
    trnadulek_run(state, memory, sizeof memory, TRNADULEK_LARGEST_BUDGET, &spent, &steps);
}

static void run_image(void)
{
    uint32_t spent, steps;
    trnadulek_run_image(image, sizeof image, TRNADULEK_LARGEST_BUDGET, &spent, &steps);
}

static void step(void)
{
    uint8_t cycles;
    trnadulek_step(state, memory, sizeof memory, &cycles);
}

static void save_and_open(void)
{
    trnadulek_save_image(state, memory, sizeof memory, image, sizeof image);
    trnadulek_open_image(image, sizeof image, state);
}

static void save_and_load(void)
{
    trnadulek_save_head(state, head, sizeof head);
    trnadulek_load_head(head, sizeof head, state);
}

/* Every byte before and behind many others. */
static void fill_part(void)
{
    size_t at;
    for (at = 0; at < sizeof part; at++) {
        part[at] = (at * 7 + at / 256) & 0xFF;
    }
}

static void list_old(void)
{
    size_t length;
    trnadulek_list(part, sizeof part, 0, TRNADULEK_EDITION_OLD, text, sizeof text, &length);
}

static void list_new(void)
{
    size_t length;
    trnadulek_list(part, sizeof part, 0, TRNADULEK_EDITION_NEW, text, sizeof text, &length);
}

/* For its room, in both editions, and for an edition that there is not. */
static void list_refused(void)
{
    size_t length;
    trnadulek_list(part, sizeof part, 0, TRNADULEK_EDITION_OLD, text, 1, &length);
    trnadulek_list(part, sizeof part, 0, TRNADULEK_EDITION_NEW, text, 1, &length);
    trnadulek_list(part, sizeof part, 0, TRNADULEK_EDITION_NEW + 1, text, sizeof text, &length);
}

/* Every spelling of the part, without its address and its bytes; how many characters they have. */
static size_t fill_spellings(void)
{
    size_t at, length, spaces = 0, count = 0;
    trnadulek_list(part, sizeof part, 0, TRNADULEK_EDITION_NEW, text, sizeof text, &length);
    for (at = 0; at < length; at++) {
        if (spaces >= 2) {
            text[count++] = text[at];
        }
        spaces = text[at] == '\n' ? 0 : spaces + (text[at] == ' ');
    }
    return count;
}

static size_t spelled;

static void assemble(void)
{
    size_t line, length;
    trnadulek_assemble(text, spelled, 0, memory, sizeof memory, &line, &length);
}

/* What stands before a constant and behind it, for each kind. */
static const char *const places[][2] = {
    {"DB ", "\n"},   {"LD A,", "\n"},    {"LD HL,", "\n"},    {"LD [", "],SP\n"}, {"LD HL,SP+", "\n"}, {"BIT ", ",[HL]\n"},
    {"SET ", ",A\n"}, {"RST ", "\n"},     {"LDH [", "],A\n"},   {"LDIO A,[", "]\n"}, {"JR NZ,", "\n"},    {"CALL NC,", "\n"},
};

static char nested[128];

/* A line with so many round brackets around a constant; its length. */
static size_t fill_nested(const char *const place[2], const char *inside, size_t depth)
{
    size_t at = strlen(place[0]);
    strcpy(nested, place[0]);
    memset(nested + at, '(', depth);
    strcpy(nested + at + depth, inside);
    at = strlen(nested);
    memset(nested + at, ')', depth);
    strcpy(nested + at + depth, place[1]);
    return strlen(nested);
}

/* One bracket less than there may be, as many, and one more; cut, and without room. */
static void assemble_in(const char *const place[2], const char *inside)
{
    size_t depth, line, length;
    for (depth = DEEPEST - 1; depth <= DEEPEST + 1; depth++) {
        const size_t count = fill_nested(place, inside, depth);
        trnadulek_assemble((const uint8_t *)nested, count, 0, memory, sizeof memory, &line, &length);
        trnadulek_assemble((const uint8_t *)nested, count - 1, 0, memory, sizeof memory, &line, &length);
        trnadulek_assemble((const uint8_t *)nested, count, 0, memory, 0, &line, &length);
        memset(nested, 0, sizeof nested);
    }
}

static void assemble_nested(void)
{
    size_t at;
    for (at = 0; at < sizeof places / sizeof places[0]; at++) {
        assemble_in(places[at], "-1-(2)+1+3");
        assemble_in(places[at], "0");
        assemble_in(places[at], "65536");
        assemble_in(places[at], "");
    }
}

static void ask(void)
{
    char words[TRNADULEK_LONGEST_WORDS + 1];
    trnadulek_text(TRNADULEK_LENGTH, words);
    trnadulek_length(0xCB);
    trnadulek_untaken_cycles(0xCB);
    trnadulek_size(3);
    trnadulek_version();
}

/* The bytes of the stack that a call has written over. */
static size_t used_by(void (*call)(void))
{
    ucontext_t there;
    size_t left = 0;
    memset(stack, PAINT, sizeof stack);
    getcontext(&there);
    there.uc_stack.ss_sp = stack;
    there.uc_stack.ss_size = sizeof stack;
    there.uc_link = &here;
    makecontext(&there, call, 0);
    swapcontext(&here, &there);
    while (left < sizeof stack && stack[left] == PAINT) {
        left++;
    }
    return sizeof stack - left;
}

static int within(size_t most, const char *what, void (*call)(void), size_t entry)
{
    size_t used = used_by(call) - entry;
    printf("stack: %s needs %lu bytes\n", what, (unsigned long)used);
    return used < most;
}

int main(void)
{
    size_t entry = used_by(nothing);
    int good = 1;
    save_and_open();
    fill_part();
    good &= within(MOST, "a run of the largest budget", run, entry);
    good &= within(MOST, "the same of an image", run_image, entry);
    good &= within(MOST, "a step", step, entry);
    good &= within(MOST, "an image saved and opened", save_and_open, entry);
    good &= within(MOST, "a head saved and loaded", save_and_load, entry);
    good &= within(MOST, "a listing of 65,536 bytes in the old edition", list_old, entry);
    good &= within(MOST, "the same in the new edition", list_new, entry);
    good &= within(MOST, "a listing that is refused", list_refused, entry);
    good &= within(MOST, "a question", ask, entry);
    spelled = fill_spellings();
    good &= within(MOST_TO_ASSEMBLE, "a listing of 65,536 bytes assembled", assemble, entry);
    good &= within(MOST_TO_ASSEMBLE, "a text with 16 round brackets", assemble_nested, entry);
    return good ? 0 : 1;
}
