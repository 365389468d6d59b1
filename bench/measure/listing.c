/* Measures the proved core's listing of a file in each edition: against binutils' disassembler, a process that writes to nowhere, and
 * the whole file against its first half.
 *
 *   listing [--rounds N] FILE */

#include "given.h"
#include "rounds.h"

#include "../../include/trnadulek.h"

#include <fcntl.h>
#include <stdio.h>
#include <string.h>
#include <sys/resource.h>
#include <sys/wait.h>
#include <unistd.h>

#define OBJDUMP "z80-unknown-coff-objdump"

/* A line lists at least one byte, and none is longer than that of LD HL,SP+-$05. */
enum { SIZE = 1048576, LONGEST_LINE = 24 };

static const double SPEED_GOAL = 1, GROWTH_GOAL = 2.2;

/* The editions, and the rounds of each. */
static struct {
	const char *name;
	uint32_t edition;
	struct costs whole, half;
} editions[] = {{.name = "new", .edition = TRNADULEK_EDITION_NEW}, {.name = "old", .edition = TRNADULEK_EDITION_OLD}};

enum { EDITIONS = sizeof editions / sizeof *editions };

static uint8_t code[SIZE];
static uint8_t text[SIZE * LONGEST_LINE];
static struct costs disassembled;

static void read_code(const char *path) {
	FILE *in = fopen(path, "rb");
	if (!in || fread(code, 1, SIZE, in) != SIZE || fgetc(in) != EOF) {
		fail(path, "is not a file of 1,048,576 bytes");
	}
	fclose(in);
}

/* Lists so much of the code in an edition, and answers the processor time it took. */
static double list(uint32_t edition, size_t size) {
	size_t length;
	double start = processor_time();
	uint8_t refusal = trnadulek_list(code, size, 0, edition, text, sizeof text, &length);
	double seconds = processor_time() - start;
	if (refusal != 0 || length < size) {
		fail("trnadulek_list", "did not list the code");
	}
	return seconds;
}

static double in_seconds(struct timeval time) {
	return (double) time.tv_sec + (double) time.tv_usec * 1e-6;
}

_Noreturn static void become_objdump(const char *path) {
	if (dup2(open("/dev/null", O_WRONLY), STDOUT_FILENO) >= 0) {
		execlp(OBJDUMP, OBJDUMP, "-D", "-z", "-b", "binary", "-m", "gbz80", path, NULL);
	}
	_exit(127);
}

/* Has the file disassembled, and answers the processor time it took. */
static double disassemble(const char *path) {
	struct rusage used;
	int status;
	pid_t child = fork();
	if (child == 0) {
		become_objdump(path);
	}
	if (child < 0 || wait4(child, &status, 0, &used) != child || status != 0) {
		fail(OBJDUMP, "did not succeed");
	}
	return in_seconds(used.ru_utime) + in_seconds(used.ru_stime);
}

/* By turns, so that a slow moment of the machine falls on all alike. */
static void measure_round(const char *path) {
	for (unsigned n = 0; n < EDITIONS; ++n) {
		add_round(&editions[n].whole, list(editions[n].edition, SIZE));
		add_round(&editions[n].half, list(editions[n].edition, SIZE / 2));
	}
	add_round(&disassembled, disassemble(path));
}

/* A cell for each edition, and whether both meet the goal. */
static bool print_row(const char *what, const struct ratio ratios[EDITIONS], const char *bound, double goal,
                      const bool met[EDITIONS]) {
	bool all_met = true;
	printf("| %s |", what);
	for (unsigned n = 0; n < EDITIONS; ++n) {
		printf(" %.2f (%.2f to %.2f) |", ratios[n].best, ratios[n].least, ratios[n].greatest);
		all_met &= met[n];
	}
	printf(" %s %.2f | %s |\n", bound, goal, all_met ? "met" : "MISSED");
	return all_met;
}

/* Answers whether every goal is met. */
static bool print_table(void) {
	struct ratio speed[EDITIONS], growth[EDITIONS];
	bool fast[EDITIONS], steady[EDITIONS];
	printf("| listing a megabyte of code |");
	for (unsigned n = 0; n < EDITIONS; ++n) {
		speed[n] = ratio_of(&disassembled, &editions[n].whole);
		growth[n] = ratio_of(&editions[n].whole, &editions[n].half);
		fast[n] = speed[n].best >= SPEED_GOAL;
		steady[n] = growth[n].best <= GROWTH_GOAL;
		printf(" %s edition |", editions[n].name);
	}
	printf(" goal | |\n|---|---|---|---|---|\n");
	bool met = print_row("how many times as fast as objdump", speed, "at least", SPEED_GOAL, fast);
	met &= print_row("how many times as long as half of it", growth, "at most", GROWTH_GOAL, steady);
	return met;
}

int main(int count, char **arguments) {
	unsigned rounds = 30;
	if (count == 4 && !strcmp(arguments[1], "--rounds")) {
		rounds = read_number(arguments[2], MOST_ROUNDS);
	} else if (count != 2) {
		fail("usage", "listing [--rounds N] FILE");
	}
	const char *path = arguments[count - 1];
	read_code(path);
	for (unsigned round = 0; round < rounds; ++round) {
		measure_round(path);
	}
	bool met = print_table();
	printf("\nOf the best of %u rounds, and the least and greatest within a round.\n", rounds);
	return met ? 0 : 1;
}
