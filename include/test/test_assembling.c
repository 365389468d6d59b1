/* Text as bytes: lines that document 02 and the instruction reference give, the ranges, the refusals, and what stays. */
#include "tests.h"

#include "../trnadulek.h"
#include "check.h"

#include <stdio.h>
#include <string.h>

enum { MOST_BYTES = 12, LONGEST_TEXT = 160, FILL = 0xA5, DEEPEST = 16 };

/* What a call is to answer. */
struct answer {
    uint8_t code;
    size_t line;
    size_t count;
    const uint8_t *bytes;
};

/* A call in so much room: its answer, the bytes at the front of the output, and nothing else changed. */
static void answers(const char *what, const struct guarded *text, uint16_t first, size_t room, struct answer expected)
{
    struct guarded before = guarded_bytes(text->count, 0);
    struct guarded out = guarded_bytes(room, FILL);
    struct guarded wanted = guarded_bytes(room, FILL);
    size_t line = 0xA5A5, length = 0x5A5A;
    memcpy(before.bytes, text->bytes, text->count);
    if (expected.count > 0) {
        memcpy(wanted.bytes, expected.bytes, expected.count);
    }
    check_number(what, expected.code,
                 trnadulek_assemble(text->bytes, text->count, first, out.bytes, out.count, &line, &length));
    check_number(what, expected.line, line);
    check_number(what, expected.count, length);
    check_bytes(what, wanted.bytes, out.bytes, room);
    check_bytes(what, before.bytes, text->bytes, text->count);
    guarded_release(what, &before);
    guarded_release(what, &out);
    guarded_release(what, &wanted);
}

static struct guarded lent(const char *text, size_t count)
{
    struct guarded bytes = guarded_bytes(count, 0);
    memcpy(bytes.bytes, text, count);
    return bytes;
}

/* ---- What is done ---- */

struct assembled {
    const char *what;
    uint16_t first;
    const char *text;
    size_t count;
    uint8_t bytes[MOST_BYTES];
};

/* With exactly the room, with more, and with as much as the header says is always enough. */
static void is_assembled(const struct assembled *given)
{
    const struct answer done = {TRNADULEK_DONE, 0, given->count, given->bytes};
    struct guarded text = lent(given->text, strlen(given->text));
    answers(given->what, &text, given->first, given->count, done);
    answers(given->what, &text, given->first, given->count + 1, done);
    answers(given->what, &text, given->first, given->count + 50, done);
    check_number("a text has no more bytes than characters", 1, given->count <= text.count);
    answers(given->what, &text, given->first, text.count, done);
    guarded_release(given->what, &text);
}

static void are_assembled(const struct assembled *given, size_t count)
{
    size_t i;
    for (i = 0; i < count; i++) {
        is_assembled(&given[i]);
    }
}

#define ASSEMBLED(given) are_assembled(given, sizeof given / sizeof given[0])

static void from_the_paper(void)
{
    static const struct assembled given[] = {
        {"document 02's lines", 0x0150, "JR NZ,$014A\nDB $D3\n", 3, {0x20, 0xF8, 0xD3}},
        {"an empty text", 0x0150, "", 0, {0}},
        {"STOP", 0, "STOP\n", 2, {0x10, 0x00}},
        {"the adding routine", 0x0150,
         "AND A,A\nLD A,[DE]\nADC A,[HL]\nDAA\nLD [HLI],A\nINC DE\nDEC B\nJR NZ,$0151\nRET\n", 10,
         {0xA7, 0x1A, 0x8E, 0x27, 0x22, 0x13, 0x05, 0x20, 0xF8, 0xC9}},
        {"the same in the old edition", 0x0150,
         "AND A,A\nLD A,[DE]\nADC A,[HL]\nDAA\nLDI [HL],A\nINC DE\nDEC B\nJR NZ,$0151\nRET\n", 10,
         {0xA7, 0x1A, 0x8E, 0x27, 0x22, 0x13, 0x05, 0x20, 0xF8, 0xC9}},
        {"round brackets are arithmetic", 0, "LD A,($12)\n", 2, {0x3E, 0x12}},
        {"square ones are an address", 0, "LD A,[$12]\n", 3, {0xFA, 0x12, 0x00}},
        {"never LDH", 0, "LD A,[$FF80]\nLD [$FF80],A\n", 6, {0xFA, 0x80, 0xFF, 0xEA, 0x80, 0xFF}},
        {"a sum as a bit number", 0, "BIT 3+4,A\n", 2, {0xCB, 0x7F}},
        {"a decimal vector", 0, "RST 8\n", 1, {0xCF}},
        {"a minus is the first term's alone", 0, "LD A,-5+3\n", 2, {0x3E, 0xFE}},
        {"behind SP+", 0, "LD HL,SP+-$05\nLD HL,SP+5-3\n", 4, {0xF8, 0xFB, 0xF8, 0x02}},
        {"LDH's address below 0", 0, "LDH [-128],A\n", 2, {0xE0, 0x80}},
    };
    ASSEMBLED(given);
}

/* As editions 002 to 004 of the reference call these, and as 001 does; each line is of either. */
static void both_editions(void)
{
    static const struct assembled given[] = {
        {"HL up", 0, "LDI [HL],A\nLD [HLI],A\nLDI A,[HL]\nLD A,[HLI]\n", 4, {0x22, 0x22, 0x2A, 0x2A}},
        {"HL down", 0, "LD [HLD],A\nLDD [HL],A\nLD A,[HLD]\nLDD A,[HL]\n", 4, {0x32, 0x32, 0x3A, 0x3A}},
        {"to full addresses", 0, "LDIO [$FF80],A\nLDH [$FF80],A\n", 4, {0xE0, 0x80, 0xE0, 0x80}},
        {"from full addresses", 0, "LDIO A,[$FF00]\nLDH A,[$FFFF]\n", 4, {0xF0, 0x00, 0xF0, 0xFF}},
        {"by C", 0, "LDIO [C],A\nLDH [C],A\nLDIO A,[C]\nLDH A,[C]\n", 4, {0xE2, 0xE2, 0xF2, 0xF2}},
    };
    ASSEMBLED(given);
}

static void spellings(void)
{
    static const struct assembled given[] = {
        {"alone", 0, "NOP\nHALT\nDI\nEI\nRETI\nCPL\nSCF\nCCF\n", 8, {0x00, 0x76, 0xF3, 0xFB, 0xD9, 0x2F, 0x37, 0x3F}},
        {"turned", 0, "RLCA\nRRA\nRR A\nRLC [HL]\nSWAP A\n", 8, {0x07, 0x1F, 0xCB, 0x1F, 0xCB, 0x06, 0xCB, 0x37}},
        {"A is said", 0, "ADD A,B\nSUB A,B\nCP A,[HL]\nXOR A,A\n", 4, {0x80, 0x90, 0xBE, 0xAF}},
        {"pairs", 0, "LD SP,HL\nADD HL,SP\nINC SP\nPUSH AF\nPOP AF\nJP HL\n", 6, {0xF9, 0x39, 0x33, 0xF5, 0xF1, 0xE9}},
        {"C is a condition and a register", 0, "RET C\nRET NC\nLD C,C\nINC C\n", 4, {0xD8, 0xD0, 0x49, 0x0C}},
        {"jumps and calls", 0, "JP NC,1\nCALL Z,$ABCD\n", 6, {0xD2, 0x01, 0x00, 0xCC, 0xCD, 0xAB}},
        {"data that is an instruction elsewhere", 0, "DB $C3\nDB 0\nDB $10\n", 3, {0xC3, 0x00, 0x10}},
        {"SP stored", 0, "LD [$1234],SP\nLD SP,$FFFE\n", 6, {0x08, 0x34, 0x12, 0x31, 0xFE, 0xFF}},
        {"to [HL]", 0, "LD [HL],$FF\nLD [HL],A\nSET 7,[HL]\n", 5, {0x36, 0xFF, 0x77, 0xCB, 0xFE}},
    };
    ASSEMBLED(given);
}

static void constants(void)
{
    static const struct assembled given[] = {
        {"decimal and hexadecimal", 0, "LD A,10\nLD A,$10\n", 4, {0x3E, 0x0A, 0x3E, 0x10}},
        {"any count of digits", 0, "LD A,0000000000000007\nLD A,$00000000000000A\n", 4, {0x3E, 0x07, 0x3E, 0x0A}},
        {"one digit", 0, "LD BC,$5\nLD BC,5\n", 6, {0x01, 0x05, 0x00, 0x01, 0x05, 0x00}},
        {"from left to right", 0, "LD A,10-3-2\nLD A,10-(3-2)\n", 4, {0x3E, 0x05, 0x3E, 0x09}},
        {"a minus inside", 0, "LD A,5+(-3)\nLD A,-(5+3)\n", 4, {0x3E, 0x02, 0x3E, 0xF8}},
        {"sums beyond a word on the way", 0, "LD A,65535+65535-65535-65534\n", 2, {0x3E, 0x01}},
        {"far below 0 on the way", 0, "LD A,-65535-65535+65535+65535+2\n", 2, {0x3E, 0x02}},
        {"brackets around a number", 0, "LD BC,(($1234))\n", 3, {0x01, 0x34, 0x12}},
        {"brackets beside each other", 0, "LD A,(1)+(2)-(-3)\n", 2, {0x3E, 0x06}},
        {"an address of terms", 0, "LD A,[$C000+2]\nJP NZ,$0150-3\n", 6, {0xFA, 0x02, 0xC0, 0xC2, 0x4D, 0x01}},
    };
    ASSEMBLED(given);
}

/* The least and the greatest of each range. */
static void edges(void)
{
    static const struct assembled given[] = {
        {"a byte", 0, "LD A,-128\nLD A,255\nLD A,-1\n", 6, {0x3E, 0x80, 0x3E, 0xFF, 0x3E, 0xFF}},
        {"data", 0, "DB -128\nDB 255\nDB -1\n", 3, {0x80, 0xFF, 0xFF}},
        {"a word", 0, "LD HL,-32768\nLD HL,65535\nLD HL,-1\n", 9,
         {0x21, 0x00, 0x80, 0x21, 0xFF, 0xFF, 0x21, 0xFF, 0xFF}},
        {"an address", 0, "JP -32768\nCALL 65535\nLD [-1],A\n", 9, {0xC3, 0x00, 0x80, 0xCD, 0xFF, 0xFF, 0xEA, 0xFF, 0xFF}},
        {"added to SP", 0, "ADD SP,-128\nADD SP,127\nLD HL,SP+-128\nLD HL,SP+127\n", 8,
         {0xE8, 0x80, 0xE8, 0x7F, 0xF8, 0x80, 0xF8, 0x7F}},
        {"a bit number", 0, "BIT 0,B\nRES 7,B\n", 4, {0xCB, 0x40, 0xCB, 0xB8}},
        {"a vector", 0, "RST 0\nRST $18\nRST 48\nRST $38\n", 4, {0xC7, 0xDF, 0xF7, 0xFF}},
        {"LDH's address", 0, "LDH [$FF00],A\nLDH A,[$FFFF]\nLDH A,[-1]\nLDIO [-256],A\n", 8,
         {0xE0, 0x00, 0xF0, 0xFF, 0xF0, 0xFF, 0xE0, 0x00}},
    };
    ASSEMBLED(given);
}

/* A line's address, a target and the way to it count modulo 65,536. */
static void addresses(void)
{
    static const struct assembled given[] = {
        {"to itself", 0xC000, "JR $C000\n", 2, {0x18, 0xFE}},
        {"furthest on", 0x0150, "JR Z,$01D1\n", 2, {0x28, 0x7F}},
        {"furthest back", 0x0150, "JR NC,$00D2\n", 2, {0x30, 0x80}},
        {"on over the top", 0xFFFE, "JR C,$0002\n", 2, {0x38, 0x02}},
        {"back below 0", 0x0000, "JR $FF82\n", 2, {0x18, 0x80}},
        {"the same by a minus", 0x0000, "JR -126\n", 2, {0x18, 0x80}},
        {"a target by a sum", 0x0150, "JR $0150+2\n", 2, {0x18, 0x00}},
        {"the bytes before count", 0x0100, "JP 0\nNOP\nJR $0106\n", 6, {0xC3, 0x00, 0x00, 0x00, 0x18, 0x00}},
        {"lines over the top", 0xFFFF, "LD A,$12\nJR $0001\n", 4, {0x3E, 0x12, 0x18, 0xFE}},
        {"a line across the top", 0xFFFE, "JP $1234\nJR $0001\n", 5, {0xC3, 0x34, 0x12, 0x18, 0xFE}},
    };
    ASSEMBLED(given);
}

/* ---- What is refused ---- */

struct refused {
    const char *what;
    uint16_t first;
    const char *text;
    uint8_t code;
    size_t line;
};

/* With room for any bytes; and with none, where that line is the first one. */
static void is_refused(const struct refused *given, size_t count)
{
    const struct answer refusal = {given->code, given->line, 0, NULL};
    struct guarded text = lent(given->text, count);
    answers(given->what, &text, given->first, count, refusal);
    answers(given->what, &text, given->first, count + 50, refusal);
    if (given->line == 1) {
        answers(given->what, &text, given->first, 0, refusal);
    }
    guarded_release(given->what, &text);
}

static void are_refused(const struct refused *given, size_t count)
{
    size_t i;
    for (i = 0; i < count; i++) {
        is_refused(&given[i], strlen(given[i].text));
    }
}

#define REFUSED(given) are_refused(given, sizeof given / sizeof given[0])

/* Lines that are spelled otherwise. They have no closing line feed here. */
static void of_no_form(void)
{
    static const char *const lines[] = {
        "", " ", "\t", "\r", "nop", "Nop", "NOP ", " NOP", "NOP\t", "NOP\r", "NOP;", "NOP ; wait", "; wait", "LOOP:",
        "LOOP: NOP", "NOPE", "NO", "0150 00 NOP", "00 NOP", "LD A, 5", "LD  A,5", "LD\tA,5", "LD A ,5", "LD A,5 ",
        "LD A,", "LD A", "LD", "LD ", "LD A,5,", "LD A,5,5", "LD a,5", "LD A,LOOP", "LD A,'A'", "LD A,\"A\"",
        /* constants */
        "LD A,$", "LD A,$+5", "LD A,+5", "LD A,--5", "LD A,-", "LD A,5+", "LD A,5-", "LD A,5++3", "LD A,5+-3",
        "LD A,5--3", "LD A,5 + 3", "LD A,5+ 3", "LD A,5*3", "LD A,5/3", "LD A,()", "LD A,(", "LD A,)", "LD A,(5",
        "LD A,5)", "LD A,(5))", "LD A,((5)", "LD A,5)+(5", "LD A,(5))-((5)", "LD A,)5(", "LD A,(5)(3)", "LD A,5(3)",
        "LD A,(5)3", "LD A,(+5)", "LD A,-(-)", "LD A,0x10", "LD A,%1", "LD A,&10", "LD A,10H", "LD A,$ff", "LD A,$Ff",
        "LD A,$FG", "LD A,1A", "LD A,$-5", "LD A,-$", "LD A,1,000", "LD A,1_0", "LD A,[5", "LD A,5]", "LD A,[]",
        "LD A,[(5]", "LD A,[5)]", "LD A,[5]+1", "LD A,[[5]]", "LD A,{5}",
        /* forms of others */
        "OR B", "SUB B", "ADD B", "AND 5", "CP 5", "CPL A", "LD [HL+],A", "LD [HL-],A", "LD A,[HL+]", "LD [$FF00+C],A",
        "LDH [$FF00+C],A", "LD [C],A", "LD A,[C]", "LDI [HLI],A", "LDI [HLI]", "LDI A", "LDD [BC],A", "LDIO [DE],A",
        "LDHL SP,5", "LD HL,SP-5", "LD HL,SP", "LD HL,SP+", "LD HL,5+SP", "ADD SP,SP", "JP [HL]", "JP (HL)", "LD A,(HL)",
        "LD (HL),A", "LD SP,SP", "LD [HL],[HL]", "LD B,[$C000]", "LD [$C000],B", "LD HL,BC", "LD [BC],B", "INC AF",
        "PUSH SP", "POP SP", "ADD HL,AF", "JR !Z,0", "JP PO,0", "RET PE", "CALL M,0", "RST", "RST [8]", "BIT B,3", "BIT 3",
        "BIT 3,BC", "BIT 3,[BC]", "SWAP", "SWAP BC", "SLL A", "RLC", "STOP 0", "STOP 1", "HALT 0", "DB", "DB ", "DB 1,2",
        "DB 1, 2", "DB \"A\"", "DB A", "DW 5", "DS 1", ".DB 5", "ORG 5", "JR NZ", "JR [5]", "EX AF,AF'", "LD A,I", "IN A,[5]",
        "LD A,B+1", "LD A,5+B", "JP NZ,Z,0", "NOP NOP", "NOPNOP",
    };
    char text[LONGEST_TEXT];
    size_t i;
    for (i = 0; i < sizeof lines / sizeof lines[0]; i++) {
        const struct refused alone = {lines[i], 0x0150, text, TRNADULEK_LINE, 1};
        const struct refused third = {lines[i], 0x0150, text, TRNADULEK_LINE, 3};
        sprintf(text, "%s\n", lines[i]);
        is_refused(&alone, strlen(text));
        sprintf(text, "NOP\nSTOP\n%s\nNOP\n", lines[i]);
        is_refused(&third, strlen(text));
    }
}

/* The last line too ends in a line feed, whatever else is wrong with it. */
static void without_a_line_feed(void)
{
    static const struct refused given[] = {
        {"alone", 0, "NOP", TRNADULEK_LINE, 1},
        {"the second", 0, "NOP\nNOP", TRNADULEK_LINE, 2},
        {"a value out of range besides", 0, "NOP\nLD A,256", TRNADULEK_LINE, 2},
        {"a number out of range besides", 0, "LD A,65536", TRNADULEK_LINE, 1},
        {"too deep besides", 0, "LD A,(((((((((((((((((5)))))))))))))))))", TRNADULEK_LINE, 1},
        {"a line feed too many", 0, "NOP\n\n", TRNADULEK_LINE, 2},
        {"a line feed before", 0, "\nNOP\n", TRNADULEK_LINE, 1},
        {"nothing but a space after the last", 0, "NOP\n ", TRNADULEK_LINE, 2},
        {"line feed and carriage return", 0, "NOP\r\nNOP\r\n", TRNADULEK_LINE, 1},
        {"carriage returns alone", 0, "NOP\rNOP\r", TRNADULEK_LINE, 1},
    };
    REFUSED(given);
}

/* 12 for so many bytes of a text, with a line feed behind them. */
static void no_line(const char *bytes, size_t count, size_t line)
{
    char text[LONGEST_TEXT];
    const struct refused given = {"bytes that are no line", 0, text, TRNADULEK_LINE, line};
    memcpy(text, bytes, count);
    text[count] = '\n';
    is_refused(&given, count + 1);
}

/* No byte is a line by itself, and none can stand before, behind or in DI; two letters can stand for its D. */
static void single_bytes(void)
{
    unsigned number;
    for (number = 0; number <= UINT8_MAX; number++) {
        const char byte = (char)number;
        const char before[] = {byte, 'D', 'I'}, in[] = {'D', byte, 'I'}, behind[] = {'D', 'I', byte};
        no_line(behind + 2, 1, 1);
        no_line(before, 3, 1);
        no_line(in, 3, 1);
        no_line(behind, 3, byte == '\n' ? 2 : 1);
        if (byte != 'D' && byte != 'E') {
            no_line(in + 1, 2, 1);
        }
    }
}

static void out_of_range(void)
{
    static const struct refused given[] = {
        {"a byte", 0, "LD A,256\n", TRNADULEK_RANGE, 1},
        {"a byte below", 0, "LD A,-129\n", TRNADULEK_RANGE, 1},
        {"to [HL]", 0, "LD [HL],$100\n", TRNADULEK_RANGE, 1},
        {"an operation's byte", 0, "XOR A,256\n", TRNADULEK_RANGE, 1},
        {"data", 0, "DB 256\n", TRNADULEK_RANGE, 1},
        {"data below", 0, "NOP\nDB -129\n", TRNADULEK_RANGE, 2},
        {"a word", 0, "LD HL,65535+1\n", TRNADULEK_RANGE, 1},
        {"a word below", 0, "LD HL,-32769\n", TRNADULEK_RANGE, 1},
        {"a jump below", 0, "JP -32769\n", TRNADULEK_RANGE, 1},
        {"an address", 0, "LD [65535+1],A\n", TRNADULEK_RANGE, 1},
        {"an address below", 0, "LD [-32769],SP\n", TRNADULEK_RANGE, 1},
        {"added to SP", 0, "ADD SP,128\n", TRNADULEK_RANGE, 1},
        {"added to SP, below", 0, "LD HL,SP+-129\n", TRNADULEK_RANGE, 1},
        {"added to SP, as a byte", 0, "LD HL,SP+255\n", TRNADULEK_RANGE, 1},
        {"a bit number", 0, "BIT 8,A\n", TRNADULEK_RANGE, 1},
        {"a bit number below", 0, "SET -1,A\n", TRNADULEK_RANGE, 1},
        {"between two vectors", 0, "RST 1\n", TRNADULEK_RANGE, 1},
        {"behind the last vector", 0, "RST 64\n", TRNADULEK_RANGE, 1},
        {"below the first vector", 0, "RST -8\n", TRNADULEK_RANGE, 1},
        {"LDH's byte alone", 0, "LDH [$80],A\n", TRNADULEK_RANGE, 1},
        {"below LDH's", 0, "LDH A,[$FEFF]\n", TRNADULEK_RANGE, 1},
        {"below LDIO's, by a minus", 0, "LDIO A,[-257]\n", TRNADULEK_RANGE, 1},
        {"LDH's, which is no word", 0, "LDH A,[-32769]\n", TRNADULEK_RANGE, 1},
        {"LDH's above a word", 0, "LDH A,[$FFFF+$FF81]\n", TRNADULEK_RANGE, 1},
        {"LDH's below a word, where $FF80 comes round", 0, "LDH A,[-$FFFF-129]\n", TRNADULEK_RANGE, 1},
        {"too far on", 0x0150, "JR $01D2\n", TRNADULEK_RANGE, 1},
        {"too far back", 0x0150, "JR NZ,$00D1\n", TRNADULEK_RANGE, 1},
        {"too far on over the top", 0xFFFE, "JR $0080\n", TRNADULEK_RANGE, 1},
        {"too far back below 0", 0x0000, "JR $FF81\n", TRNADULEK_RANGE, 1},
        {"a distance for a target", 0x0150, "JR 5\n", TRNADULEK_RANGE, 1},
        {"a target that is no word", 0xFFF0, "JR $FFFF+1\n", TRNADULEK_RANGE, 1},
        {"itself, below a word", 0x0150, "JR -65200\n", TRNADULEK_RANGE, 1},
        {"a number", 0, "LD HL,65536\n", TRNADULEK_RANGE, 1},
        {"a number of five digits", 0, "LD HL,$10000\n", TRNADULEK_RANGE, 1},
        {"a number, though the sum is none", 0, "LD A,65536-65530\n", TRNADULEK_RANGE, 1},
        {"a number in brackets", 0, "LD A,5-(65536-65536)\n", TRNADULEK_RANGE, 1},
        {"a number after a minus", 0, "LD HL,-65536\n", TRNADULEK_RANGE, 1},
        {"a number that comes round 32 bits", 0, "LD A,4294967301\n", TRNADULEK_RANGE, 1},
        {"a number that comes round 64 bits", 0, "LD A,18446744073709551621\n", TRNADULEK_RANGE, 1},
        {"a number that comes round 128 bits", 0, "LD A,$100000000000000000000000000000005\n", TRNADULEK_RANGE, 1},
    };
    REFUSED(given);
}

/* So many round brackets around a 5, with other text before and behind. */
static const char *nested(char text[LONGEST_TEXT], const char *before, size_t depth, const char *behind)
{
    size_t at = strlen(before);
    strcpy(text, before);
    memset(text + at, '(', depth);
    text[at + depth] = '5';
    memset(text + at + depth + 1, ')', depth);
    strcpy(text + at + 2 * depth + 1, behind);
    return text;
}

static void depths(void)
{
    static const uint8_t five[] = {0x3E, 0x05}, sum[] = {0x3E, 0x0A};
    char text[LONGEST_TEXT];
    size_t depth;
    for (depth = 0; depth <= 40; depth++) {
        const int deep = depth > DEEPEST;
        const struct answer done = {TRNADULEK_DONE, 0, 2, five}, too_deep = {TRNADULEK_NESTING, 1, 0, NULL};
        struct guarded lines = lent(text, strlen(nested(text, "LD A,", depth, "\n")));
        answers("so deep", &lines, 0, lines.count, deep ? too_deep : done);
        guarded_release("so deep", &lines);
    }
    /* Brackets that are closed again are not open. */
    nested(text, "LD A,", DEEPEST, "+");
    nested(text + strlen(text), "", DEEPEST, "\n");
    {
        const struct answer done = {TRNADULEK_DONE, 0, 2, sum};
        struct guarded lines = lent(text, strlen(text));
        answers("16 twice", &lines, 0, lines.count, done);
        guarded_release("16 twice", &lines);
    }
}

/* Of one line the form comes first, for any depth; then the depth, the range, the room. */
static void order(void)
{
    char text[LONGEST_TEXT];
    const struct refused form = {"a form before a depth", 0, text, TRNADULEK_LINE, 1};
    const struct refused depth = {"a depth before a range", 0, text, TRNADULEK_NESTING, 1};
    const struct refused range = {"a range before the room", 0, "LD A,256\n", TRNADULEK_RANGE, 1};
    is_refused(&form, strlen(nested(text, "LD A,", 40, ")\n")));
    is_refused(&form, strlen(nested(text, "LD A,(", 40, "\n")));
    is_refused(&form, strlen(nested(text, "LD A,(", 40, "+)\n")));
    is_refused(&form, strlen(nested(text, "ld A,", 40, "\n")));
    is_refused(&form, strlen(nested(text, "LD A,", 17, " \n")));
    is_refused(&depth, strlen(nested(text, "LD A,256+", 17, "\n")));
    is_refused(&depth, strlen(nested(text, "LD A,65536+", 17, "\n")));
    is_refused(&depth, strlen(nested(text, "RST ", 17, "\n")));
    is_refused(&range, strlen(range.text));
}

/* The first line at fault, whatever the others have. */
static void first_line(void)
{
    char deep[LONGEST_TEXT];
    const struct refused third = {"13 in line 3", 0, deep, TRNADULEK_NESTING, 3};
    static const struct refused given[] = {
        {"12 before 14", 0, "NOP\nnop\nLD A,256\n", TRNADULEK_LINE, 2},
        {"14 before 12", 0, "NOP\nLD A,256\nnop\n", TRNADULEK_RANGE, 2},
        {"14 before no line feed", 0, "LD A,256\nNOP", TRNADULEK_RANGE, 1},
    };
    REFUSED(given);
    nested(deep, "NOP\nNOP\nLD A,", 17, "\nnop\n");
    is_refused(&third, strlen(deep));
}

/* 10 names the first line whose bytes do not all fit, and a fault before it comes first. */
static void room(void)
{
    static const struct {
        const char *text;
        size_t room;
        uint8_t code;
        size_t line;
    } given[] = {
        {"NOP\n", 0, TRNADULEK_ROOM, 1},
        {"JP 0\n", 2, TRNADULEK_ROOM, 1},
        {"NOP\nJP 0\nNOP\n", 3, TRNADULEK_ROOM, 2},
        {"NOP\nJP 0\nNOP\n", 4, TRNADULEK_ROOM, 3},
        {"NOP\nNOP\nSTOP\n", 3, TRNADULEK_ROOM, 3},
        {"NOP\nnop\n", 0, TRNADULEK_ROOM, 1},
        {"NOP\nNOP", 0, TRNADULEK_ROOM, 1},
        {"NOP\nLD A,256\n", 0, TRNADULEK_ROOM, 1},
        {"nop\nNOP\n", 0, TRNADULEK_LINE, 1},
        {"NOP\nnop\n", 1, TRNADULEK_LINE, 2},
        {"NOP\nLD A,256\n", 1, TRNADULEK_RANGE, 2},
        {"NOP\nLD A,255\n", 1, TRNADULEK_ROOM, 2},
        {"NOP\nLD A,255\n", 2, TRNADULEK_ROOM, 2},
    };
    size_t i;
    for (i = 0; i < sizeof given / sizeof given[0]; i++) {
        const struct answer refusal = {given[i].code, given[i].line, 0, NULL};
        struct guarded text = lent(given[i].text, strlen(given[i].text));
        answers(given[i].text, &text, 0x0150, given[i].room, refusal);
        guarded_release(given[i].text, &text);
    }
}

/* ---- Long texts ---- */

/* More bytes of code than there are addresses: lines, addresses and the output go on. */
static void longer_than_the_memory(void)
{
    static const char line[] = "JP $0150\n", last[] = "JR $0002\n";
    const size_t lines = 22000, length = sizeof line - 1;
    struct guarded text = guarded_bytes((lines + 1) * length, 0);
    struct guarded out = guarded_bytes(lines * 3 + 5, FILL);
    size_t at, fault = 0xA5A5, made = 0, otherwise = 0;
    check_number("two lines of one length", length, sizeof last - 1);
    for (at = 0; at < lines; at++) {
        memcpy(text.bytes + at * length, line, length);
    }
    /* 66,000 bytes from $FE30 on come to $0000, behind which the last line stands. */
    memcpy(text.bytes + lines * length, last, length);
    check_number("a long text", TRNADULEK_DONE,
                 trnadulek_assemble(text.bytes, text.count, 0xFE30, out.bytes, out.count, &fault, &made));
    check_number("a long text", 0, fault);
    check_number("a long text", lines * 3 + 2, made);
    for (at = 0; at < lines; at++) {
        otherwise += memcmp(out.bytes + at * 3, "\xC3\x50\x01", 3) != 0;
    }
    check_number("lines that are something else", 0, otherwise);
    check_bytes("the last line, and what is past it", (const uint8_t *)"\x18\x00\xA5\xA5\xA5", out.bytes + lines * 3, 5);
    text.bytes[text.count - 1] = ' ';
    check_number("a long text at fault", TRNADULEK_LINE,
                 trnadulek_assemble(text.bytes, text.count, 0xFE30, out.bytes, out.count, &fault, &made));
    check_number("its last line", lines + 1, fault);
    check_number("no bytes", 0, made);
    guarded_release("beside a long text", &text);
    guarded_release("beside its bytes", &out);
}

/* The spellings of a listing, line by line: what stands behind the second space. */
static size_t spellings_of(const uint8_t *listing, size_t count, uint8_t *text)
{
    size_t at, length = 0, spaces = 0;
    for (at = 0; at < count; at++) {
        if (spaces >= 2) {
            text[length++] = listing[at];
        }
        spaces += listing[at] == ' ';
        spaces = listing[at] == '\n' ? 0 : spaces;
    }
    return length;
}

/* A listing's spellings give its bytes back, of a part that is longer than there are addresses too. */
static void there_and_back(uint32_t edition, uint16_t first, size_t count)
{
    struct guarded part = guarded_bytes(count, 0);
    struct guarded listing = guarded_bytes(count * TRNADULEK_LISTING_PER_BYTE, 0);
    struct guarded text = guarded_bytes(listing.count, 0);
    struct guarded out = guarded_bytes(count + 1, FILL);
    uint32_t number = 54321;
    size_t at, length = 0, fault = 0xA5A5, made = 0;
    for (at = 0; at < count; at++) {
        number = number * 1664525u + 1013904223u;
        part.bytes[at] = (uint8_t)(number >> 24);
    }
    check_number("a listing", TRNADULEK_DONE,
                 trnadulek_list(part.bytes, count, first, edition, listing.bytes, listing.count, &length));
    length = spellings_of(listing.bytes, length, text.bytes);
    check_number("there and back", TRNADULEK_DONE,
                 trnadulek_assemble(text.bytes, length, first, out.bytes, count, &fault, &made));
    check_number("there and back", 0, fault);
    check_number("there and back", count, made);
    check_bytes("there and back", part.bytes, out.bytes, count);
    check_number("past them", FILL, out.bytes[count]);
    guarded_release("beside a part", &part);
    guarded_release("beside a listing", &listing);
    guarded_release("beside its spellings", &text);
    guarded_release("beside its bytes", &out);
}

void test_assembling(void)
{
    from_the_paper();
    both_editions();
    spellings();
    constants();
    edges();
    addresses();
    of_no_form();
    without_a_line_feed();
    single_bytes();
    out_of_range();
    depths();
    order();
    first_line();
    room();
    longer_than_the_memory();
    there_and_back(TRNADULEK_EDITION_OLD, 0x0150, 300);
    there_and_back(TRNADULEK_EDITION_NEW, 0xFFFF, 300);
    there_and_back(TRNADULEK_EDITION_OLD, 0xFF00, 70001);
    there_and_back(TRNADULEK_EDITION_NEW, 0x0150, 70001);
}
