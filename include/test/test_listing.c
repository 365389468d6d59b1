/* Bytes as text: the lines that document 02 and the instruction reference give, the room, and what stays. */
#include "tests.h"

#include "../trnadulek.h"
#include "check.h"

#include <stdio.h>
#include <string.h>

enum { PER_BYTE = TRNADULEK_LISTING_PER_BYTE, LONGEST_PART = 12, FILL = '.' };

/* What is no edition; some would be one if they were cut down to fewer bits. */
static const uint32_t no_editions[] = {
    0, 3, 4, 255, 256, 256 + 1, 256 + 2, 65535, 65536 + 1, 65536 + 2, 0x80000001, 0x80000002, UINT32_MAX,
};

enum { NO_EDITIONS = sizeof no_editions / sizeof no_editions[0] };

struct listed {
    const char *what;
    uint16_t first;
    size_t count;
    uint8_t part[LONGEST_PART];
    const char *text;
};

/* A call in so much room: its answer, the text at the front of the output, and nothing else changed. */
static void answers(const struct listed *given, uint32_t edition, size_t room, uint8_t code, const char *text)
{
    const size_t text_length = strlen(text);
    struct guarded part = guarded_bytes(given->count, 0);
    struct guarded out = guarded_bytes(room, FILL);
    struct guarded expected = guarded_bytes(room, FILL);
    size_t length = 0xA5A5;
    memcpy(part.bytes, given->part, given->count);
    memcpy(expected.bytes, text, text_length);
    check_number(given->what, code,
                 trnadulek_list(part.bytes, part.count, given->first, edition, out.bytes, out.count, &length));
    check_number(given->what, text_length, length);
    check_bytes(given->what, expected.bytes, out.bytes, room);
    check_bytes(given->what, given->part, part.bytes, given->count);
    guarded_release(given->what, &part);
    guarded_release(given->what, &out);
    guarded_release(given->what, &expected);
}

/* The text whole, or 10 and nothing where it does not fit. */
static void with_room(const struct listed *given, uint32_t edition, size_t room)
{
    const int fits = strlen(given->text) <= room;
    answers(given, edition, room, fits ? TRNADULEK_DONE : TRNADULEK_ROOM, fits ? given->text : "");
}

/* Exactly the text, a byte less, more than it, none, and the bound that the header gives. */
static void with_every_room(const struct listed *given, uint32_t edition)
{
    const size_t text_length = strlen(given->text);
    with_room(given, edition, text_length);
    with_room(given, edition, text_length + 1);
    with_room(given, edition, text_length + 50);
    with_room(given, edition, given->count * PER_BYTE);
    with_room(given, edition, 0);
    if (text_length > 0) {
        with_room(given, edition, text_length - 1);
    }
}

/* 11 whether there is room or not: it comes before 10. */
static void in_no_edition(const struct listed *given)
{
    size_t i;
    for (i = 0; i < NO_EDITIONS; i++) {
        answers(given, no_editions[i], 0, TRNADULEK_EDITION, "");
        answers(given, no_editions[i], given->count * PER_BYTE + 50, TRNADULEK_EDITION, "");
    }
}

/* Texts of one edition, and the same parts in editions that there are not. */
static void in_edition(uint32_t edition, const struct listed *given, size_t count)
{
    size_t i;
    for (i = 0; i < count; i++) {
        with_every_room(&given[i], edition);
        in_no_edition(&given[i]);
    }
}

static void in_both(const struct listed *given, size_t count)
{
    size_t i;
    in_edition(TRNADULEK_EDITION_OLD, given, count);
    for (i = 0; i < count; i++) {
        with_every_room(&given[i], TRNADULEK_EDITION_NEW);
    }
}

#define IN_EDITION(edition, given) in_edition(edition, given, sizeof given / sizeof given[0])
#define IN_BOTH(given) in_both(given, sizeof given / sizeof given[0])

static void from_the_paper(void)
{
    static const struct listed given[] = {
        {"document 02's example", 0x0150, 3, {0x20, 0xF8, 0xD3}, "0150 20F8 JR NZ,$014A\n0152 D3 DB $D3\n"},
        {"STOP", 0x0150, 2, {0x10, 0x00}, "0150 1000 STOP\n"},
        {"an empty part", 0x0150, 0, {0}, ""},
    };
    IN_BOTH(given);
}

/* What begins no instruction is data, and the next byte is read afresh. */
static void data(void)
{
    static const struct listed given[] = {
        {"cut after two of three", 0, 2, {0xC3, 0x00}, "0000 C3 DB $C3\n0001 00 NOP\n"},
        {"cut after one of three", 0, 1, {0xCD}, "0000 CD DB $CD\n"},
        {"cut after one of two", 0, 2, {0xC9, 0x3E}, "0000 C9 RET\n0001 3E DB $3E\n"},
        {"a jump without its distance", 0, 1, {0x18}, "0000 18 DB $18\n"},
        {"what is left of a cut is whole", 0, 2, {0x01, 0x3C}, "0000 01 DB $01\n0001 3C INC A\n"},
        {"what is left of a cut is cut", 0, 2, {0x01, 0x06}, "0000 01 DB $01\n0001 06 DB $06\n"},
        {"a lone prefix", 0x8000, 1, {0xCB}, "8000 CB DB $CB\n"},
        {"a prefix twice", 0x8000, 3, {0xCB, 0xCB, 0xCB}, "8000 CBCB SET 1,E\n8002 CB DB $CB\n"},
        {"$10 at the end", 0, 1, {0x10}, "0000 10 DB $10\n"},
        {"$10 before another byte", 0, 2, {0x10, 0x3C}, "0000 10 DB $10\n0001 3C INC A\n"},
        {"$10 before a STOP", 0, 3, {0x10, 0x10, 0x00}, "0000 10 DB $10\n0001 1000 STOP\n"},
        {"undefined ones", 0, 4, {0xD3, 0xDB, 0xDD, 0xE3},
         "0000 D3 DB $D3\n0001 DB DB $DB\n0002 DD DB $DD\n0003 E3 DB $E3\n"},
        {"more of them", 0, 4, {0xE4, 0xEB, 0xEC, 0xED},
         "0000 E4 DB $E4\n0001 EB DB $EB\n0002 EC DB $EC\n0003 ED DB $ED\n"},
        {"and the last", 0, 3, {0xF4, 0xFC, 0xFD}, "0000 F4 DB $F4\n0001 FC DB $FC\n0002 FD DB $FD\n"},
    };
    IN_BOTH(given);
}

/* Addresses and targets count modulo 65,536; only the part's end cuts. */
static void addresses(void)
{
    static const struct listed given[] = {
        {"over the top", 0xFFFE, 5, {0x00, 0x3E, 0x12, 0x00, 0xC9},
         "FFFE 00 NOP\nFFFF 3E12 LD A,$12\n0001 00 NOP\n0002 C9 RET\n"},
        {"three bytes over the top", 0xFFFF, 3, {0xC3, 0x50, 0x01}, "FFFF C35001 JP $0150\n"},
        {"to itself", 0xC000, 2, {0x18, 0xFE}, "C000 18FE JR $C000\n"},
        {"furthest on", 0x0150, 2, {0x28, 0x7F}, "0150 287F JR Z,$01D1\n"},
        {"furthest back", 0x0150, 2, {0x30, 0x80}, "0150 3080 JR NC,$00D2\n"},
        {"on over the top", 0xFFFE, 2, {0x38, 0x02}, "FFFE 3802 JR C,$0002\n"},
        {"back below 0", 0x0000, 2, {0x18, 0x80}, "0000 1880 JR $FF82\n"},
    };
    IN_BOTH(given);
}

static void constants(void)
{
    static const struct listed given[] = {
        {"two digits", 0, 4, {0x06, 0x05, 0xFE, 0xA0}, "0000 0605 LD B,$05\n0002 FEA0 CP A,$A0\n"},
        {"to [HL]", 0, 2, {0x36, 0xFF}, "0000 36FF LD [HL],$FF\n"},
        {"four digits", 0, 6, {0x31, 0xFE, 0xFF, 0x08, 0x34, 0x12},
         "0000 31FEFF LD SP,$FFFE\n0003 083412 LD [$1234],SP\n"},
        {"by address", 0, 6, {0xEA, 0x00, 0xC0, 0xFA, 0x80, 0xFF},
         "0000 EA00C0 LD [$C000],A\n0003 FA80FF LD A,[$FF80]\n"},
        {"jumps and calls", 0, 6, {0xD2, 0x01, 0x00, 0xCC, 0xCD, 0xAB},
         "0000 D20100 JP NC,$0001\n0003 CCCDAB CALL Z,$ABCD\n"},
        {"below 0", 0, 4, {0xE8, 0xFB, 0xF8, 0xFB}, "0000 E8FB ADD SP,-$05\n0002 F8FB LD HL,SP+-$05\n"},
        {"furthest below 0", 0, 4, {0xE8, 0x80, 0xF8, 0x80}, "0000 E880 ADD SP,-$80\n0002 F880 LD HL,SP+-$80\n"},
        {"not below 0", 0, 4, {0xE8, 0x00, 0xF8, 0x7F}, "0000 E800 ADD SP,$00\n0002 F87F LD HL,SP+$7F\n"},
        {"vectors", 0, 3, {0xC7, 0xCF, 0xFF}, "0000 C7 RST $00\n0001 CF RST $08\n0002 FF RST $38\n"},
        {"bit numbers", 0, 4, {0xCB, 0x7C, 0xCB, 0x86}, "0000 CB7C BIT 7,H\n0002 CB86 RES 0,[HL]\n"},
    };
    IN_BOTH(given);
}

static void spellings(void)
{
    static const struct listed given[] = {
        {"A is said", 0, 4, {0x80, 0x90, 0xBE, 0xAF},
         "0000 80 ADD A,B\n0001 90 SUB A,B\n0002 BE CP A,[HL]\n0003 AF XOR A,A\n"},
        {"BC, DE and HL", 0, 3, {0x02, 0x1A, 0x7E}, "0000 02 LD [BC],A\n0001 1A LD A,[DE]\n0002 7E LD A,[HL]\n"},
        {"alone", 0, 4, {0x2F, 0x3F, 0x76, 0xD9}, "0000 2F CPL\n0001 3F CCF\n0002 76 HALT\n0003 D9 RETI\n"},
        {"HL without brackets", 0, 3, {0xE9, 0xF9, 0x39}, "0000 E9 JP HL\n0001 F9 LD SP,HL\n0002 39 ADD HL,SP\n"},
        {"AF and SP", 0, 4, {0xF5, 0xF1, 0x33, 0x3B},
         "0000 F5 PUSH AF\n0001 F1 POP AF\n0002 33 INC SP\n0003 3B DEC SP\n"},
        {"turned", 0, 3, {0x1F, 0xCB, 0x1F}, "0000 1F RRA\n0001 CB1F RR A\n"},
        {"swapped", 0, 4, {0xCB, 0x37, 0xCB, 0x3E}, "0000 CB37 SWAP A\n0002 CB3E SRL [HL]\n"},
        {"the switch", 0, 3, {0xF3, 0xFB, 0xD8}, "0000 F3 DI\n0001 FB EI\n0002 D8 RET C\n"},
        {"cut before its address", 0, 1, {0xE0}, "0000 E0 DB $E0\n"},
        {"cut before its address too", 0, 1, {0xF0}, "0000 F0 DB $F0\n"},
    };
    IN_BOTH(given);
}

#define ADDING_ROUTINE {0xA7, 0x1A, 0x8E, 0x27, 0x22, 0x13, 0x05, 0x20, 0xF8, 0xC9}

/* As editions 002 to 004 of the reference call these, and without a space after the comma. */
static void old_spellings(void)
{
    static const struct listed given[] = {
        {"HL up", 0, 2, {0x22, 0x2A}, "0000 22 LDI [HL],A\n0001 2A LDI A,[HL]\n"},
        {"HL down", 0, 2, {0x32, 0x3A}, "0000 32 LDD [HL],A\n0001 3A LDD A,[HL]\n"},
        {"full addresses", 0, 4, {0xE0, 0x80, 0xF0, 0x80}, "0000 E080 LDIO [$FF80],A\n0002 F080 LDIO A,[$FF80]\n"},
        {"lowest and highest", 0, 4, {0xE0, 0x00, 0xF0, 0xFF}, "0000 E000 LDIO [$FF00],A\n0002 F0FF LDIO A,[$FFFF]\n"},
        {"by C", 0, 2, {0xE2, 0xF2}, "0000 E2 LDIO [C],A\n0001 F2 LDIO A,[C]\n"},
        {"over the top", 0xFFFF, 3, {0xE0, 0x0F, 0x22}, "FFFF E00F LDIO [$FF0F],A\n0001 22 LDI [HL],A\n"},
        {"the adding routine", 0x0150, 10, ADDING_ROUTINE,
         "0150 A7 AND A,A\n0151 1A LD A,[DE]\n0152 8E ADC A,[HL]\n0153 27 DAA\n0154 22 LDI [HL],A\n"
         "0155 13 INC DE\n0156 05 DEC B\n0157 20F8 JR NZ,$0151\n0159 C9 RET\n"},
    };
    IN_EDITION(TRNADULEK_EDITION_OLD, given);
}

static void new_spellings(void)
{
    static const struct listed given[] = {
        {"HL up", 0, 2, {0x22, 0x2A}, "0000 22 LD [HLI],A\n0001 2A LD A,[HLI]\n"},
        {"HL down", 0, 2, {0x32, 0x3A}, "0000 32 LD [HLD],A\n0001 3A LD A,[HLD]\n"},
        {"full addresses", 0, 4, {0xE0, 0x80, 0xF0, 0x80}, "0000 E080 LDH [$FF80],A\n0002 F080 LDH A,[$FF80]\n"},
        {"lowest and highest", 0, 4, {0xE0, 0x00, 0xF0, 0xFF}, "0000 E000 LDH [$FF00],A\n0002 F0FF LDH A,[$FFFF]\n"},
        {"by C", 0, 2, {0xE2, 0xF2}, "0000 E2 LDH [C],A\n0001 F2 LDH A,[C]\n"},
        {"over the top", 0xFFFF, 3, {0xE0, 0x0F, 0x22}, "FFFF E00F LDH [$FF0F],A\n0001 22 LD [HLI],A\n"},
        {"the adding routine", 0x0150, 10, ADDING_ROUTINE,
         "0150 A7 AND A,A\n0151 1A LD A,[DE]\n0152 8E ADC A,[HL]\n0153 27 DAA\n0154 22 LD [HLI],A\n"
         "0155 13 INC DE\n0156 05 DEC B\n0157 20F8 JR NZ,$0151\n0159 C9 RET\n"},
    };
    IN_EDITION(TRNADULEK_EDITION_NEW, given);
}

static void numbers_of_editions(void)
{
    check_number("the old edition", 1, TRNADULEK_EDITION_OLD);
    check_number("the new edition", 2, TRNADULEK_EDITION_NEW);
}

/* The first line of three bytes, as a string; where its spelling begins. */
static size_t first_line(const uint8_t part[3], uint32_t edition, char line[3 * PER_BYTE + 1])
{
    uint8_t out[3 * PER_BYTE];
    size_t at, length = 0;
    trnadulek_list(part, 3, 0xFFFF, edition, out, sizeof out, &length);
    for (at = 0; at < length && out[at] != '\n'; at++) {
        line[at] = (char)out[at];
    }
    line[at] = 0;
    return at < 5 ? at : 5 + strcspn(line + 5, " ");
}

/* The two editions differ in the spelling of eight opcodes, whatever follows them, and nowhere else. */
static void nothing_else_differs(void)
{
    static const char eight[] = "\x22\x2A\x32\x3A\xE0\xF0\xE2\xF2";
    unsigned long otherwise = 0, columns = 0;
    unsigned pair;
    for (pair = 0; pair <= UINT16_MAX; pair++) {
        const uint8_t part[3] = {(uint8_t)(pair / 256), (uint8_t)pair, 0x00};
        char old[3 * PER_BYTE + 1], new[3 * PER_BYTE + 1];
        const size_t spelled = first_line(part, TRNADULEK_EDITION_OLD, old);
        const int two = memchr(eight, part[0], sizeof eight - 1) != NULL;
        columns += spelled != first_line(part, TRNADULEK_EDITION_NEW, new) || strncmp(old, new, spelled) != 0;
        otherwise += (strcmp(old, new) != 0) != two;
    }
    check_number("pairs with other addresses or bytes in the two editions", 0, columns);
    check_number("pairs that are spelled twice, or once, and should not be", 0, otherwise);
}

/* No first two bytes need more than the bound; LD [HLI],A needs all of it, and LDI [HL],A does. */
static void bound(uint32_t edition)
{
    struct guarded part = guarded_bytes(3, 0);
    struct guarded out = guarded_bytes(3 * PER_BYTE, FILL);
    unsigned long refused = 0, longest = 0;
    unsigned pair;
    size_t length;
    for (pair = 0; pair <= UINT16_MAX; pair++) {
        part.bytes[0] = (uint8_t)(pair / 256);
        part.bytes[1] = (uint8_t)pair;
        part.bytes[2] = 0x22;
        refused += trnadulek_list(part.bytes, part.count, 0xFFFF, edition, out.bytes, out.count, &length) != 0;
        longest = length > longest ? length : longest;
    }
    check_number("room by the bound is refused so often", 0, refused);
    check_number("the longest text of three bytes", 3 * PER_BYTE, longest);
    guarded_release("beside a part", &part);
    guarded_release("beside a text", &out);
}

/* A line's address and bytes, where they are those that come next; how many bytes it has, else 0. */
static size_t line_at(const char *line, const struct guarded *part, size_t at, uint16_t first)
{
    char expected[16];
    size_t count;
    for (count = 1; count <= 3 && at + count <= part->count; count++) {
        int written = sprintf(expected, "%04X ", (unsigned)(first + at) % 65536);
        size_t i;
        for (i = 0; i < count; i++) {
            written += sprintf(expected + written, "%02X", part->bytes[at + i]);
        }
        sprintf(expected + written, " ");
        if (strncmp(line, expected, (size_t)written + 1) == 0) {
            return count;
        }
    }
    return 0;
}

/* The lines of a long part, longer than there are addresses, have each of its bytes once and in order. */
static void every_byte_once(uint32_t edition)
{
    struct guarded part = guarded_bytes(70001, 0);
    struct guarded out = guarded_bytes(part.count * PER_BYTE, FILL);
    const char *line = (const char *)out.bytes;
    uint32_t number = 12345;
    size_t at, length = 0, next = 1;
    for (at = 0; at < part.count; at++) {
        number = number * 1664525u + 1013904223u;
        part.bytes[at] = (uint8_t)(number >> 24);
    }
    check_number("a long part", TRNADULEK_DONE,
                 trnadulek_list(part.bytes, part.count, 0x0150, edition, out.bytes, out.count, &length));
    for (at = 0; at < part.count && next > 0; at += next) {
        next = line_at(line, &part, at, 0x0150);
        line += strcspn(line, "\n.") + 1; /* a point is no byte of a text: what is unwritten */
    }
    check_number("bytes in the lines", part.count, at);
    check_number("the lines' own length", length, (size_t)(line - (const char *)out.bytes));
    check_number("past the text", FILL, out.bytes[length]);
    guarded_release("beside a long part", &part);
    guarded_release("beside a long text", &out);
}

void test_listing(void)
{
    from_the_paper();
    data();
    addresses();
    constants();
    spellings();
    numbers_of_editions();
    old_spellings();
    new_spellings();
    nothing_else_differs();
    bound(TRNADULEK_EDITION_OLD);
    bound(TRNADULEK_EDITION_NEW);
    every_byte_once(TRNADULEK_EDITION_OLD);
    every_byte_once(TRNADULEK_EDITION_NEW);
}
