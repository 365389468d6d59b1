/* Checks that count, and bytes that are lent with a guard on each side. */
#ifndef CHECK_H
#define CHECK_H

#include <stddef.h>
#include <stdint.h>

/* One comparison; a difference is printed and counted. */
void check_number(const char *what, unsigned long expected, unsigned long got);
void check_bytes(const char *what, const uint8_t *expected, const uint8_t *got, size_t count);

/* How many comparisons there were, and how many of them differed. */
unsigned long checks_made(void);
unsigned long checks_failed(void);

/*
 * Bytes to lend to a call: exactly count of them, between two guards, all
 * filled with one value. guarded_release checks that the guards are untouched.
 */
struct guarded {
    uint8_t *bytes;
    size_t count;
    uint8_t *whole;
};

struct guarded guarded_bytes(size_t count, uint8_t fill);
void guarded_release(const char *what, struct guarded *lent);

#endif
