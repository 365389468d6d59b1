/* Writes a megabyte of code to standard output, always the same: instructions as games have them, common ones
 * more often than others, and now and then bytes that are anything. */

#include <stdint.h>
#include <stdio.h>

enum { SIZE = 1048576 };

/* Common opcodes that stand alone, before a byte, and before a word. */
static const uint8_t ALONE[] = { 0x00, 0x09, 0x13, 0x19, 0x1A, 0x22, 0x23, 0x2A, 0x3C, 0x3D, 0x46, 0x47, 0x4F, 0x57,
	0x5F, 0x66, 0x6F, 0x77, 0x78, 0x79, 0x7A, 0x7E, 0x80, 0x86, 0x96, 0xA7, 0xAF, 0xB7, 0xB8, 0xC0, 0xC1, 0xC5,
	0xC8, 0xC9, 0xD1, 0xD5, 0xE1, 0xE5, 0xF1, 0xF5 };
static const uint8_t BEFORE_BYTE[] = { 0x06, 0x0E, 0x18, 0x20, 0x28, 0x30, 0x38, 0x3E, 0xC6, 0xCB, 0xCB, 0xD6, 0xE0,
	0xE6, 0xF0, 0xF6, 0xF8, 0xFE };
static const uint8_t BEFORE_WORD[] = { 0x01, 0x11, 0x21, 0xC2, 0xC3, 0xCA, 0xCD, 0xCD, 0xEA, 0xFA };

/* The next number below a limit, of a row that is always the same. */
static uint32_t below(uint32_t limit) {
	static uint64_t state = 1;
	state = state * 6364136223846793005u + 1442695040888963407u;
	return (uint32_t) (((state >> 32) * limit) >> 32);
}

static void put(uint8_t byte) {
	static uint32_t written;
	if (written < SIZE) {
		putchar(byte);
		++written;
	}
}

static void put_any(unsigned count) {
	while (count-- > 0) {
		put((uint8_t) below(256));
	}
}

#define ONE_OF(bytes) bytes[below(sizeof bytes)]

int main(void) {
	for (unsigned i = 0; i < SIZE; ++i) {
		uint32_t kind = below(16);
		if (kind < 9) {
			put(ONE_OF(ALONE));
		} else if (kind < 13) {
			put(ONE_OF(BEFORE_BYTE));
			put_any(1);
		} else if (kind < 15) {
			put(ONE_OF(BEFORE_WORD));
			put_any(2);
		} else {
			put_any(1);
		}
	}
	return ferror(stdout) || fclose(stdout) ? 1 : 0;
}
