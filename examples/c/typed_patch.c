/*
 * A patch comes to the bench as text, and goes into the memory of a unit.
 *
 * The routine that it replaces is listed, the text is assembled over it and over nothing else, and
 * what is there then is listed and run. A line at fault is shown, and leaves the memory as it was.
 */
#include <trnadulek.h>

#include <stdio.h>
#include <string.h>

enum {
    ROUTINE = 0x0160, /* sets how many lives a game starts with */
    LIVES = 0xFF80,
    STACK = 0xDFFE
};

static const uint8_t routine[] = {
    0x3E, 0x03, /* 0160 LD A,$03      */
    0xE0, 0x80, /* 0162 LDH [$FF80],A */
    0xC9        /* 0164 RET           */
};

static uint8_t memory[TRNADULEK_MEMORY_SIZE];

/* Lists the routine, as the site manuals spell. */
static void show(const char *when)
{
    uint8_t text[sizeof routine * TRNADULEK_LISTING_PER_BYTE];
    size_t length;
    trnadulek_list(memory + ROUTINE, sizeof routine, ROUTINE, TRNADULEK_EDITION_OLD, text, sizeof text, &length);
    printf("%s:\n%.*s", when, (int)length, (const char *)text);
}

/* A line of a text, counted from 1. */
static void show_line(const char *text, size_t line)
{
    while (--line > 0) {
        text += strcspn(text, "\n") + 1;
    }
    printf("  %.*s\n", (int)strcspn(text, "\n"), text);
}

/* Assembles a text over the routine. Only its bytes are lent, so nothing past them can change. */
static void patch(const char *text)
{
    char words[TRNADULEK_LONGEST_WORDS + 1];
    size_t line, length;
    uint8_t code = trnadulek_assemble((const uint8_t *)text, strlen(text), ROUTINE, memory + ROUTINE, sizeof routine,
                                      &line, &length);
    if (code == TRNADULEK_DONE) {
        printf("patched %lu bytes\n", (unsigned long)length);
    } else {
        printf("line %lu: refused with %u: %s\n", (unsigned long)line, code, trnadulek_text(code, words));
        show_line(text, line);
    }
}

/* Runs the routine as a CALL would, until it has returned. */
static void run(void)
{
    const struct trnadulek_cpu cpu = {.sp = STACK, .pc = ROUTINE};
    uint8_t state[TRNADULEK_STATE_SIZE];
    uint32_t spent, steps;
    trnadulek_state_of_cpu(&cpu, state);
    trnadulek_run(state, memory, sizeof memory, 9, &spent, &steps);
    printf("lives: %u\n", memory[LIVES]);
}

int main(void)
{
    memcpy(memory + ROUTINE, routine, sizeof routine);
    show("before");
    patch("LD A,$07\nldio [$FF80],a\nRET\n");
    patch("LD A,300\nLDIO [$FF80],A\nRET\n");
    patch("LD A,$07\nLDIO [$FF80],A\nNOP\nRET\n");
    show("still");
    patch("LD A,3+4\nLDIO [$FF80],A\nRET\n");
    show("after");
    run();
    return 0;
}
