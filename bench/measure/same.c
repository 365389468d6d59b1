#include "same.h"

#include <inttypes.h>
#include <stdio.h>
#include <string.h>

static bool differ(const char *workload, const struct end *expected, const struct end *given,
                   const char *what, uint64_t wanted, uint64_t got) {
	fprintf(stderr, "bench: %s: %s has %" PRIu64 " for %s, %s has %" PRIu64 "\n", workload,
	        given->core->name, got, what, expected->core->name, wanted);
	return false;
}

static const char *name_of_byte(unsigned at, char *text, size_t size) {
	static const char *const names[HEAD_SIZE] = {
		"the version", "a length", "a length", "a length", "a length",
		"A", "F", "B", "C", "D", "E", "H", "L",
		"the high byte of SP", "the low byte of SP",
		"the high byte of PC", "the low byte of PC",
		"IME", "the mode", "a length", "a length", "a length", "a length",
	};
	if (at < HEAD_SIZE) {
		return names[at];
	}
	snprintf(text, size, "the byte at $%04X", at - HEAD_SIZE);
	return text;
}

bool same_end(const char *workload, const struct end *expected, const struct end *given) {
	const struct timed *e = &expected->timed, *g = &given->timed;
	char text[32];
	if (e->code != g->code) {
		return differ(workload, expected, given, "the code", e->code, g->code);
	}
	if (e->spent != g->spent) {
		return differ(workload, expected, given, "the cycles", e->spent, g->spent);
	}
	if (given->core->counts_steps && e->steps != g->steps) {
		return differ(workload, expected, given, "the steps", e->steps, g->steps);
	}
	if (memcmp(expected->image, given->image, IMAGE_SIZE) == 0) {
		return true;
	}
	unsigned at = 0;
	while (expected->image[at] == given->image[at]) {
		++at;
	}
	return differ(workload, expected, given, name_of_byte(at, text, sizeof text),
	              expected->image[at], given->image[at]);
}
