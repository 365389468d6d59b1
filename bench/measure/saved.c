#include "saved.h"

enum { STATE_AT = 5 };

static uint16_t read_word(const uint8_t *bytes) {
	return (uint16_t) (bytes[0] << 8 | bytes[1]);
}

static void write_word(uint16_t word, uint8_t *bytes) {
	bytes[0] = (uint8_t) (word >> 8);
	bytes[1] = (uint8_t) word;
}

struct plain read_head(const uint8_t *head) {
	const uint8_t *s = head + STATE_AT;
	return (struct plain) {
		.a = s[0], .f = s[1], .b = s[2], .c = s[3],
		.d = s[4], .e = s[5], .h = s[6], .l = s[7],
		.sp = read_word(s + 8), .pc = read_word(s + 10),
		.ime = s[12], .mode = s[13],
	};
}

/* The lengths and the version around the state stay as they are. */
void write_head(struct plain cpu, uint8_t *head) {
	uint8_t *s = head + STATE_AT;
	s[0] = cpu.a, s[1] = cpu.f, s[2] = cpu.b, s[3] = cpu.c;
	s[4] = cpu.d, s[5] = cpu.e, s[6] = cpu.h, s[7] = cpu.l;
	write_word(cpu.sp, s + 8);
	write_word(cpu.pc, s + 10);
	s[12] = cpu.ime, s[13] = cpu.mode;
}
