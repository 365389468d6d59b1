/* Makes an image of document 01 from what a linker wrote as Intel hexadecimal:
 * the bytes in a memory of zeros, PC at $0100, every other register 0, IME Off,
 * mode Running. */

#include <stdint.h>
#include <stdio.h>
#include <stdlib.h>

enum { HEAD_SIZE = 23, MEMORY_SIZE = 65536 };
enum { RECORD_DATA = 0, RECORD_END = 1, LONGEST_RECORD = 5 + 255 };

static const uint8_t head[HEAD_SIZE] = {
	1,                         /* version */
	0, 0, 0, 14,               /* length of the state */
	0, 0, 0, 0, 0, 0, 0, 0,    /* A F B C D E H L */
	0, 0, 0x01, 0x00,          /* SP, PC */
	0, 0,                      /* IME, mode */
	0, 1, 0, 0,                /* length of the memory */
};

static uint8_t memory[MEMORY_SIZE];

static _Noreturn void fail(const char *path, const char *why) {
	fprintf(stderr, "mkimage: %s: %s\n", path, why);
	exit(2);
}

/* Reads the bytes of one record and answers how many there are. */
static unsigned read_record(const char *path, const char *line, uint8_t *record) {
	unsigned length = 0, byte;
	int digits;
	if (line[0] != ':') {
		fail(path, "a line does not begin with a colon");
	}
	for (++line; sscanf(line, "%2x%n", &byte, &digits) == 1 && digits == 2; line += 2) {
		if (length == LONGEST_RECORD) {
			fail(path, "a record is too long");
		}
		record[length++] = (uint8_t) byte;
	}
	return length;
}

static void check_record(const char *path, const uint8_t *record, unsigned length) {
	unsigned sum = 0;
	for (unsigned i = 0; i < length; ++i) {
		sum += record[i];
	}
	if (length < 5 || length != 5u + record[0] || (sum & 0xFF) != 0) {
		fail(path, "a record is damaged");
	}
}

static void place(const char *path, const uint8_t *record) {
	unsigned count = record[0], address = record[1] * 256u + record[2];
	if (address + count > MEMORY_SIZE) {
		fail(path, "a record passes the end of memory");
	}
	for (unsigned i = 0; i < count; ++i) {
		memory[address + i] = record[4 + i];
	}
}

static void read_hex(const char *path) {
	char line[2 * LONGEST_RECORD + 8];
	uint8_t record[LONGEST_RECORD];
	FILE *in = fopen(path, "r");
	if (!in) {
		fail(path, "cannot be read");
	}
	while (fgets(line, sizeof line, in)) {
		check_record(path, record, read_record(path, line, record));
		if (record[3] == RECORD_END) {
			fclose(in);
			return;
		}
		if (record[3] != RECORD_DATA) {
			fail(path, "a record is of a kind that has no place here");
		}
		place(path, record);
	}
	fail(path, "the last record is missing");
}

static void write_image(const char *path) {
	FILE *out = fopen(path, "wb");
	if (!out) {
		fail(path, "cannot be made");
	}
	if (fwrite(head, 1, HEAD_SIZE, out) != HEAD_SIZE ||
	    fwrite(memory, 1, MEMORY_SIZE, out) != MEMORY_SIZE || fclose(out) != 0) {
		remove(path);
		fail(path, "cannot be written");
	}
}

int main(int count, char **arguments) {
	if (count != 3) {
		fputs("usage: mkimage FILE.ihx OUT\n", stderr);
		return 2;
	}
	read_hex(arguments[1]);
	write_image(arguments[2]);
	return 0;
}
