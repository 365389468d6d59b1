/* Measures the proved core's assembler on texts of one and of two megabytes: lines of a file, and texts of one line that is as long.
 * Twice the text must not take much more than twice the time, whatever it is and however it is answered.
 *
 *   assembling [--rounds N] FILE */

#include "given.h"
#include "rounds.h"

#include "../../include/trnadulek.h"

#include <stdio.h>
#include <string.h>

enum { MEGABYTE = 1048576, MOST = 2 * MEGABYTE };

static const double GROWTH_GOAL = 2.2;

/* A text of a size: a front, one piece again and again, one more and, for brackets, so many of the other half, and an end. */
struct kind {
	const char *name, *front, *piece, *middle, *other_half, *end;
	uint8_t code;
	struct costs one, two;
};

/* The first two are the lines of the file, and each other is one line. */
static struct kind kinds[] = {
	{.name = "lines", .code = TRNADULEK_DONE},
	{.name = "lines, the last at fault", .end = "nop\n", .code = TRNADULEK_LINE},
	{.name = "decimal digits", .front = "DB ", .piece = "0", .middle = "5", .end = "\n", .code = TRNADULEK_DONE},
	{.name = "decimal digits, too large", .front = "DB ", .piece = "9", .end = "\n", .code = TRNADULEK_RANGE},
	{.name = "hexadecimal digits", .front = "LD BC,$", .piece = "0", .middle = "5", .end = "\n", .code = TRNADULEK_DONE},
	{.name = "brackets", .front = "DB ", .piece = "(", .middle = "5", .other_half = ")", .end = "\n", .code = TRNADULEK_NESTING},
	{.name = "brackets left open", .front = "DB ", .piece = "(", .middle = "5", .end = "\n", .code = TRNADULEK_LINE},
	{.name = "brackets side by side", .front = "DB 0", .piece = "+(1)-(1)", .end = "\n", .code = TRNADULEK_DONE},
	{.name = "terms", .front = "DB 5", .piece = "+65535-65535", .end = "\n", .code = TRNADULEK_DONE},
	{.name = "terms, out of range", .front = "DB 5", .piece = "+65535", .end = "\n", .code = TRNADULEK_RANGE},
	{.name = "terms, malformed at the end", .front = "DB 5", .piece = "+1", .middle = "+", .end = "\n", .code = TRNADULEK_LINE},
	{.name = "letters", .piece = "A", .end = "\n", .code = TRNADULEK_LINE},
	{.name = "letters of an operand", .front = "LD ", .piece = "HL", .end = "\n", .code = TRNADULEK_LINE},
	{.name = "spaces", .front = "NOP", .piece = " ", .end = "\n", .code = TRNADULEK_LINE},
	{.name = "commas", .front = "LD A", .piece = ",A", .end = "\n", .code = TRNADULEK_LINE},
	{.name = "square brackets", .front = "LD ", .piece = "[", .end = "\n", .code = TRNADULEK_LINE},
	{.name = "no newline at all", .front = "DB 5", .piece = "+1", .code = TRNADULEK_LINE},
	{.name = "bytes above 127", .piece = "\xFF", .end = "\n", .code = TRNADULEK_LINE},
};

enum { KINDS = sizeof kinds / sizeof *kinds };

static uint8_t file[MOST], text[MOST + 16], out[MOST];
static size_t text_len;

static void read_lines(const char *path) {
	FILE *in = fopen(path, "rb");
	if (!in || fread(file, 1, MOST, in) != MOST) {
		fail(path, "is not a file of 2,097,152 bytes or more");
	}
	fclose(in);
}

static void put(const char *piece) {
	size_t size = piece ? strlen(piece) : 0;
	memcpy(text + text_len, piece ? piece : "", size);
	text_len += size;
}

/* Whole lines of the file, at most so many bytes. */
static void put_lines(size_t size) {
	while (size > 0 && file[size - 1] != '\n') {
		--size;
	}
	memcpy(text, file, size);
	text_len = size;
}

/* Puts the piece while there is room for it, its other half, and what follows. */
static void put_pieces(const struct kind *kind, size_t size) {
	size_t each = strlen(kind->piece) + (kind->other_half ? strlen(kind->other_half) : 0);
	size_t pieces = (size - 16) / each;
	put(kind->front);
	for (size_t n = 0; n < pieces; ++n) {
		put(kind->piece);
	}
	put(kind->middle);
	for (size_t n = 0; kind->other_half && n < pieces; ++n) {
		put(kind->other_half);
	}
}

static void make(const struct kind *kind, size_t size) {
	text_len = 0;
	if (kind->piece) {
		put_pieces(kind, size);
	} else {
		put_lines(size);
	}
	put(kind->end);
}

/* Assembles a text of the kind and of the size, and answers the processor time it took. */
static double assemble(const struct kind *kind, size_t size) {
	size_t line, length;
	make(kind, size);
	double start = processor_time();
	uint8_t code = trnadulek_assemble(text, text_len, 0, out, sizeof out, &line, &length);
	double seconds = processor_time() - start;
	if (code != kind->code || (code == 0) != (line == 0) || (code == 0) != (length > 0)) {
		fail(kind->name, "is not answered as it should be");
	}
	return seconds;
}

/* By turns, so that a slow moment of the machine falls on all alike. */
static void measure_round(void) {
	for (unsigned n = 0; n < KINDS; ++n) {
		add_round(&kinds[n].one, assemble(&kinds[n], MEGABYTE));
		add_round(&kinds[n].two, assemble(&kinds[n], MOST));
	}
}

/* Answers whether every goal is met. */
static bool print_table(void) {
	bool all_met = true;
	printf("| assembling two megabytes of | how many times as long as one | goal | |\n|---|---|---|---|\n");
	for (unsigned n = 0; n < KINDS; ++n) {
		struct ratio growth = ratio_of(&kinds[n].two, &kinds[n].one);
		bool met = growth.best <= GROWTH_GOAL;
		printf("| %s | %.2f (%.2f to %.2f) | at most %.2f | %s |\n", kinds[n].name, growth.best, growth.least,
		       growth.greatest, GROWTH_GOAL, met ? "met" : "MISSED");
		all_met &= met;
	}
	return all_met;
}

int main(int count, char **arguments) {
	unsigned rounds = 20;
	if (count == 4 && !strcmp(arguments[1], "--rounds")) {
		rounds = read_number(arguments[2], MOST_ROUNDS);
	} else if (count != 2) {
		fail("usage", "assembling [--rounds N] FILE");
	}
	read_lines(arguments[count - 1]);
	for (unsigned round = 0; round < rounds; ++round) {
		measure_round();
	}
	bool met = print_table();
	printf("\nOf the best of %u rounds, and the least and greatest within a round.\n", rounds);
	return met ? 0 : 1;
}
