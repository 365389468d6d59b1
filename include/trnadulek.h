/*
 * Trnadulek: a proved core for the SM83.
 *
 * The host lends bytes; the core answers a number. 0 is done, and every other
 * number is a refusal that says why. There is nothing to test before a call:
 * any lengths and any contents are either done or refused.
 *
 *   state         14 bytes, the state block: the registers, IME and mode
 *   memory       65,536 bytes, flat, all of them readable and writable
 *   head          23 bytes, a saved state: the state block is its bytes 5 to 18
 *   image     65,559 bytes, a head and the memory after it
 *
 * A state block, and a head around it; all numbers are big-endian:
 *
 *   block      head
 *              0          version of the saved form, 1
 *              1 to 4     length of the state block, 14
 *   0 to 7     5 to 12    A F B C D E H L
 *   8, 9       13, 14     SP
 *   10, 11     15, 16     PC
 *   12         17         IME: 0 Off, 1 Arming, 2 On
 *   13         18         mode: 0 Running, 1 Repeat, 2 Halted, 3 Stopped
 *              19 to 22   length of the memory, 65,536
 *
 * The block is what a host keeps between two calls. A later version may give
 * it more bytes at its end: make room of TRNADULEK_STATE_SIZE, and compare
 * that with trnadulek_size(1) once at the start.
 *
 * What a call needs of its pointers, and all it needs: each is valid for its
 * length, or for the bytes of a state block, or for the one number that it
 * leads to; what one of them may write overlaps nothing that another one leads
 * to; and no other thread writes there, or reads what may be written, before
 * the call returns. Where a length is 0, nothing is read or written through its
 * pointer, which may then be NULL. No other pointer may.
 *
 * What a call does with them: it writes only where a pointer is not const,
 * and only what its comment says. It keeps no pointer and no state, allocates
 * nothing, reads no clock and no file, calls nothing of the host, and returns
 * after at most a budget's worth of steps, or a few readings of what is listed
 * or assembled. So it is reentrant, and calls on different bytes may run at the
 * same time, in any threads. It needs less than 1,024 bytes of stack, whatever
 * the budget and the lengths; trnadulek_assemble less than 4,096.
 *
 * This header is C99 and C++11. Link with libtrnadulek.a, which is for x86-64
 * Linux.
 */
#ifndef TRNADULEK_H
#define TRNADULEK_H

#include <stddef.h>
#include <stdint.h>

/*
 * The version of this header. trnadulek_version answers the library's, as
 * 10,000 times the first number, 100 times the second, and the third.
 */
#define TRNADULEK_VERSION_MAJOR 0
#define TRNADULEK_VERSION_MINOR 6
#define TRNADULEK_VERSION_PATCH 0
#define TRNADULEK_VERSION_NUMBER 600u
#define TRNADULEK_VERSION_STRING "0.6.0"

/* The sizes. trnadulek_size answers them too. */
#define TRNADULEK_HEAD_SIZE 23u
#define TRNADULEK_STATE_SIZE 14u
#define TRNADULEK_MEMORY_SIZE 65536u
#define TRNADULEK_IMAGE_SIZE 65559u
#define TRNADULEK_LARGEST_BUDGET 1048576u

/* The most bytes of text that a listing has for each byte listed, in either edition; a size too. */
#define TRNADULEK_LISTING_PER_BYTE 19u

/* The editions of a listing: the older wordings of the instruction reference, and the newest. */
#define TRNADULEK_EDITION_OLD 1u
#define TRNADULEK_EDITION_NEW 2u

/* The most cycles that a run can spend beyond its budget. */
#define TRNADULEK_LARGEST_EXCESS 5u

/* The most bytes that the words for a number have, without a closing zero. */
#define TRNADULEK_LONGEST_WORDS 43u

#ifdef __cplusplus
extern "C" {
#endif

/* The numbers that calls answer. */
enum trnadulek_code {
    TRNADULEK_DONE = 0,
    TRNADULEK_MEMORY_LENGTH = 1, /* memory length is not 65,536 */
    TRNADULEK_FLAG_BITS = 2,     /* low four bits of F are not 0 */
    TRNADULEK_STOPPED = 3,       /* mode is Stopped when a step is due */
    TRNADULEK_UNDEFINED = 4,     /* the step would run an undefined opcode */
    TRNADULEK_BUDGET = 5,        /* budget above 1,048,576 */
    TRNADULEK_LENGTH = 6,        /* head, image or output slice of wrong length */
    TRNADULEK_SAVED_VERSION = 7, /* version byte is not 1 */
    TRNADULEK_BLOCK_LENGTH = 8,  /* a block length is not 14, or not 65,536 */
    TRNADULEK_STATE_CODE = 9,    /* IME code above 2, or mode code above 3 */
    TRNADULEK_ROOM = 10,         /* output too short */
    TRNADULEK_EDITION = 11,      /* edition number is neither 1 nor 2 */
    TRNADULEK_LINE = 12,         /* a line of no such form */
    TRNADULEK_NESTING = 13,      /* nesting deeper than 16 */
    TRNADULEK_RANGE = 14         /* number or value out of range */
};

/*
 * Takes one step.
 *
 * Refused, in this order, with 9 for the codes of IME and mode, 1 for the
 * memory's length, 2 for F, 3 for a Stopped mode, 4 for an undefined opcode.
 *
 * 0: the block holds the next state, the memory what the step stored (at most
 * three bytes change) and *cycles what it cost, 1 to 6.
 * Refused: the block and the memory are unchanged, and *cycles is 0.
 */
uint8_t trnadulek_step(uint8_t state[TRNADULEK_STATE_SIZE], uint8_t *memory, size_t memory_len, uint8_t *cycles);

/*
 * Takes steps until the budget of cycles is met.
 *
 * Refused, in this order, with 9 for the codes of IME and mode, 1 for the
 * memory's length, 2 for F, 5 for the budget; then by the first step that is
 * refused, with 3 or 4.
 *
 * 0: *spent is at least the budget and at most 5 more, *steps how many steps
 * were taken, and the block and the memory are as those steps left them. A
 * budget of 0 takes no step, also of a Stopped machine.
 * 3 or 4: the same for the steps before the refused one: they stay, and
 * *spent and *steps count them. *spent is below the budget.
 * Any other number: the block and the memory are unchanged, and *spent and
 * *steps are 0.
 *
 * A budget may be sliced: a run, and then a run of what is left of the budget,
 * leave what one run of the whole budget leaves. The memory is not copied.
 */
uint8_t trnadulek_run(uint8_t state[TRNADULEK_STATE_SIZE], uint8_t *memory, size_t memory_len, uint32_t budget,
                      uint32_t *spent, uint32_t *steps);

/*
 * Runs an image where it lies. This is the call for a saved game: whatever it
 * answers, the head and the memory of the image belong together afterwards.
 *
 * Refused, in this order, with 6, 7, 8, 9, 2 as trnadulek_open_image refuses,
 * 5 for the budget; then by the first step that is refused, with 3 or 4.
 *
 * 0, 3 or 4: as trnadulek_run, and the image is the one that a save of the
 * state and the memory after those steps would write.
 * Any other number: the image is unchanged, and *spent and *steps are 0.
 */
uint8_t trnadulek_run_image(uint8_t *image, size_t image_len, uint32_t budget, uint32_t *spent, uint32_t *steps);

/*
 * Loads a head: its state block.
 *
 * Refused, in this order, with 6, 7, 8, 9, 2. Then all of the state block is
 * zero.
 */
uint8_t trnadulek_load_head(const uint8_t *head, size_t head_len, uint8_t state[TRNADULEK_STATE_SIZE]);

/*
 * Saves a state block as a head of exactly 23 bytes.
 *
 * Refused, in this order, with 9 for the codes of IME and mode, 6 for the
 * head's length, 2 for F. Then the head is unchanged.
 *
 * A load of what a save wrote gives the state block back, and a save of what a
 * load gave writes the same head.
 */
uint8_t trnadulek_save_head(const uint8_t state[TRNADULEK_STATE_SIZE], uint8_t *head, size_t head_len);

/*
 * Opens an image: its state block. Its memory is the image's own bytes from
 * TRNADULEK_HEAD_SIZE to the end. To step that memory by itself leaves the
 * head behind: save the state into it (trnadulek_save_head on the image's
 * first TRNADULEK_HEAD_SIZE bytes), or call trnadulek_run_image instead.
 *
 * Refused, in this order, with 6, 7, 8, 9, 2. Then all of the state block is
 * zero.
 */
uint8_t trnadulek_open_image(const uint8_t *image, size_t image_len, uint8_t state[TRNADULEK_STATE_SIZE]);

/*
 * Saves a state block and a memory as an image of exactly 65,559 bytes.
 *
 * Refused, in this order, with 9 for the codes of IME and mode, 6 for the
 * image's length, 1 for the memory's, 2 for F. Then the image is unchanged.
 */
uint8_t trnadulek_save_image(const uint8_t state[TRNADULEK_STATE_SIZE], const uint8_t *memory, size_t memory_len,
                             uint8_t *image, size_t image_len);

/*
 * The opcode table: a row below 256 is that opcode, and a row from there to
 * 511 is $CB and the opcode that is 256 less. The length counts all bytes of
 * the instruction, $CB too. The cycles are those of a branch that is not
 * taken: where its condition is met, a jump takes 1 more, a call or a return 3
 * more. A row without an instruction (an undefined opcode, row $CB, any number
 * above 511) has 0 and 0.
 */
uint8_t trnadulek_length(uint32_t row);
uint8_t trnadulek_untaken_cycles(uint32_t row);

/*
 * Lists a part of a program as text: one line an instruction, from the part's
 * first byte, whose address is first, to its end. A line is four digits of the
 * address, a space, the bytes, a space, the instruction and a line feed:
 *
 *   0150 20F8 JR NZ,$014A
 *   0152 D3 DB $D3
 *
 * Every byte stands in one line. One that begins no instruction is data, DB:
 * an undefined opcode, a $10 that no $00 follows, and the first byte of an
 * instruction that the part's end cuts; the next byte is read afresh then.
 * Addresses count modulo 65,536. The text is ASCII and has no zero byte.
 *
 * The edition says how eight opcodes are spelled. All else is the same in both:
 * the other spellings, what is data, the addresses and the bytes.
 *
 *   bytes      edition 1, old    edition 2, new
 *   $22        LDI [HL],A        LD [HLI],A
 *   $2A        LDI A,[HL]        LD A,[HLI]
 *   $32        LDD [HL],A        LD [HLD],A
 *   $3A        LDD A,[HL]        LD A,[HLD]
 *   $E0 $80    LDIO [$FF80],A    LDH [$FF80],A
 *   $F0 $80    LDIO A,[$FF80]    LDH A,[$FF80]
 *   $E2        LDIO [C],A        LDH [C],A
 *   $F2        LDIO A,[C]        LDH A,[C]
 *
 * Refused, in this order, with 11 for any other edition, also of an empty part,
 * and 10 for the room.
 *
 * 0: *length is how many bytes the text has. They are at the front of out, and
 * the bytes of out past them are unchanged. An empty part has length 0.
 * 11: the edition is neither 1 nor 2. *length is 0, and out is unchanged.
 * 10: the text is longer than out_len. *length is 0, and out is unchanged.
 *
 * Room of part_len * TRNADULEK_LISTING_PER_BYTE bytes is always enough, and
 * room of exactly the text's length is. How long a text would be cannot be
 * asked: a host with less room may try it and, after 10, ask again with more
 * room or for fewer bytes.
 */
uint8_t trnadulek_list(const uint8_t *part, size_t part_len, uint16_t first, uint32_t edition, uint8_t *out,
                       size_t out_len, size_t *length);

/*
 * Assembles a text: lines of spelling as trnadulek_list writes them behind the
 * address and the bytes, each of either edition, to bytes. The first line's
 * address is first; a line's is that plus the bytes before it, modulo 65,536.
 *
 *   JR NZ,$014A
 *   DB $D3
 *
 * Every line ends in a line feed, the last one too. Names, capitals, commas and
 * spaces are the listing's, and there is nothing else in a line: no comment, no
 * label, no tab, no carriage return. The spelling alone decides the opcode:
 * LD A,[$FF80] has three bytes and is never LDH.
 *
 * Where the listing has a number, a line may have any constant: terms joined by
 * + or -, the first perhaps after a minus, which is that term's alone. A term is
 * a decimal number, a number of hexadecimal digits behind $, or a constant in
 * round brackets, which are arithmetic: LD A,($12) is LD A,$12. No space stands
 * in it. A number is at most 65,535, with any count of digits; sums on the way
 * have no limit, and the value of the whole must be in range:
 *
 *   a byte, and DB       -128 to 255, counted modulo 256
 *   a word, an address   -32,768 to 65,535, counted modulo 65,536
 *   LDH's, LDIO's        an address, which is then $FF00 to $FFFF
 *   JR's target          an address, 128 back to 127 on from what follows the
 *                        JR, over $FFFF and $0000 too
 *   added to SP          -128 to 127
 *   bit number           0 to 7
 *   RST's vector         0, 8, 16, 24, 32, 40, 48, 56
 *
 * Refused for the first line that is at fault, and of it, in this order, with 12
 * for its form, 13 for round brackets of which more than 16 are open at once, 14
 * for a number above 65,535 or a value out of range, 10 for the room: its bytes
 * do not fit behind those of the lines before it.
 *
 * 0: *length is how many bytes there are. They are at the front of out, and the
 * bytes of out past them are unchanged. *line is 0. An empty text has length 0.
 * Any other number: *line is the number of that line, counted from 1. *length is
 * 0, and all of out is unchanged.
 *
 * The spellings of a whole listing, assembled from its first address, give its
 * bytes back. Room of text_len bytes is always enough, since no line has more
 * bytes than characters, and room of exactly as many bytes as there are is.
 */
uint8_t trnadulek_assemble(const uint8_t *text, size_t text_len, uint16_t first, uint8_t *out, size_t out_len,
                           size_t *line, size_t *length);

/*
 * The sizes as the library has them: 0 a head, 1 a state block, 2 the memory,
 * 3 an image, 4 the largest budget, 5 the most bytes of text for each byte
 * listed; 0 for any other number. A host that asks at its start knows that the
 * header and the library belong together.
 */
uint32_t trnadulek_size(uint32_t which);

/* The library's version; this header's is TRNADULEK_VERSION_NUMBER. */
uint32_t trnadulek_version(void);

/*
 * The words for a number, in ASCII, with no zero byte after them.
 *
 * Answers how many bytes the words have, and 0 for a number that has none.
 * They are written to the front of out if out is long enough for all of them;
 * else nothing is written. Bytes of out beyond them are unchanged. No words
 * are longer than TRNADULEK_LONGEST_WORDS. trnadulek_text, below, closes them
 * with a zero.
 */
size_t trnadulek_words(uint8_t code, uint8_t *out, size_t out_len);

#ifdef __cplusplus
}
#endif

/* ---- Conveniences: they are code of this header, and no part of the library. ---- */

/* The words for a number as a string, which is out; empty for a number that has none. */
static inline const char *trnadulek_text(uint8_t code, char out[TRNADULEK_LONGEST_WORDS + 1])
{
    uint8_t words[TRNADULEK_LONGEST_WORDS];
    size_t count = trnadulek_words(code, words, sizeof words);
    size_t at;
    for (at = 0; at < count; at++) {
        out[at] = words[at] & 0x7F; /* they are ASCII; the mask needs no cast, in C or in C++ */
    }
    out[count] = 0;
    return out;
}

/* The registers by name. */

enum trnadulek_ime { TRNADULEK_IME_OFF = 0, TRNADULEK_IME_ARMING = 1, TRNADULEK_IME_ON = 2 };

enum trnadulek_mode {
    TRNADULEK_MODE_RUNNING = 0,
    TRNADULEK_MODE_REPEAT = 1,
    TRNADULEK_MODE_HALTED = 2,
    TRNADULEK_MODE_STOPPED = 3
};

struct trnadulek_cpu {
    uint8_t a, f, b, c, d, e, h, l;
    uint16_t sp, pc;
    uint8_t ime;  /* of enum trnadulek_ime; the calls refuse any other with 9 */
    uint8_t mode; /* of enum trnadulek_mode; the calls refuse any other with 9 */
};

static inline void trnadulek_state_of_cpu(const struct trnadulek_cpu *cpu, uint8_t state[TRNADULEK_STATE_SIZE])
{
    state[0] = cpu->a;
    state[1] = cpu->f;
    state[2] = cpu->b;
    state[3] = cpu->c;
    state[4] = cpu->d;
    state[5] = cpu->e;
    state[6] = cpu->h;
    state[7] = cpu->l;
    state[8] = cpu->sp / 256u & 0xFFu;
    state[9] = cpu->sp & 0xFFu;
    state[10] = cpu->pc / 256u & 0xFFu;
    state[11] = cpu->pc & 0xFFu;
    state[12] = cpu->ime;
    state[13] = cpu->mode;
}

static inline void trnadulek_cpu_of_state(const uint8_t state[TRNADULEK_STATE_SIZE], struct trnadulek_cpu *cpu)
{
    cpu->a = state[0];
    cpu->f = state[1];
    cpu->b = state[2];
    cpu->c = state[3];
    cpu->d = state[4];
    cpu->e = state[5];
    cpu->h = state[6];
    cpu->l = state[7];
    cpu->sp = (state[8] * 256u + state[9]) & 0xFFFFu;
    cpu->pc = (state[10] * 256u + state[11]) & 0xFFFFu;
    cpu->ime = state[12];
    cpu->mode = state[13];
}

/* trnadulek_load_head, trnadulek_save_head and trnadulek_open_image, by name. */

static inline uint8_t trnadulek_load_cpu(const uint8_t *head, size_t head_len, struct trnadulek_cpu *cpu)
{
    uint8_t state[TRNADULEK_STATE_SIZE];
    uint8_t code = trnadulek_load_head(head, head_len, state);
    trnadulek_cpu_of_state(state, cpu);
    return code;
}

static inline uint8_t trnadulek_save_cpu(const struct trnadulek_cpu *cpu, uint8_t *head, size_t head_len)
{
    uint8_t state[TRNADULEK_STATE_SIZE];
    trnadulek_state_of_cpu(cpu, state);
    return trnadulek_save_head(state, head, head_len);
}

static inline uint8_t trnadulek_open_cpu(const uint8_t *image, size_t image_len, struct trnadulek_cpu *cpu)
{
    uint8_t state[TRNADULEK_STATE_SIZE];
    uint8_t code = trnadulek_open_image(image, image_len, state);
    trnadulek_cpu_of_state(state, cpu);
    return code;
}

#endif
