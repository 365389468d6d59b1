/* The head of an image, for the cores that do not read and write it themselves. */

#ifndef SAVED_H
#define SAVED_H

#include "../plain/plain.h"

#include <stdint.h>

struct plain read_head(const uint8_t *head);
void write_head(struct plain cpu, uint8_t *head);

#endif
