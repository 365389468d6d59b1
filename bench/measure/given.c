#include "given.h"

#include <stdio.h>
#include <stdlib.h>

_Noreturn void fail(const char *what, const char *why) {
	fprintf(stderr, "bench: %s: %s\n", what, why);
	exit(2);
}

void read_image(const char *path, uint8_t *image) {
	FILE *in = fopen(path, "rb");
	if (!in || fread(image, 1, IMAGE_SIZE, in) != IMAGE_SIZE || fgetc(in) != EOF) {
		fail(path, "is not an image of 65,559 bytes");
	}
	fclose(in);
}

uint32_t read_number(const char *text, uint32_t most) {
	char *rest;
	unsigned long number = strtoul(text, &rest, 10);
	if (text[0] < '1' || text[0] > '9' || *rest || number > most) {
		fail(text, "is not a number that is taken here");
	}
	return (uint32_t) number;
}
