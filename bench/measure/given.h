/* What the programs are given: images and numbers, or an end with status 2. */

#ifndef GIVEN_H
#define GIVEN_H

#include "core.h"

_Noreturn void fail(const char *what, const char *why);
void read_image(const char *path, uint8_t *image);
uint32_t read_number(const char *text, uint32_t most);

#endif
