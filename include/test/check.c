#include "check.h"

#include <stdio.h>
#include <stdlib.h>
#include <string.h>

enum { GUARD = 64, GUARD_FILL = 0x5C };

static unsigned long made;
static unsigned long failed;

void check_number(const char *what, unsigned long expected, unsigned long got)
{
    made++;
    if (expected != got) {
        failed++;
        printf("%s: expected %lu ($%lX), got %lu ($%lX)\n", what, expected, expected, got, got);
    }
}

void check_bytes(const char *what, const uint8_t *expected, const uint8_t *got, size_t count)
{
    size_t at = 0;
    while (at < count && expected[at] == got[at]) {
        at++;
    }
    made++;
    if (at < count) {
        failed++;
        printf("%s: byte %lu is $%02X and not $%02X\n", what, (unsigned long)at, got[at], expected[at]);
    }
}

unsigned long checks_made(void)
{
    return made;
}

unsigned long checks_failed(void)
{
    return failed;
}

struct guarded guarded_bytes(size_t count, uint8_t fill)
{
    struct guarded lent;
    lent.whole = malloc(count + 2 * GUARD);
    if (lent.whole == NULL) {
        puts("no memory");
        exit(2);
    }
    lent.bytes = lent.whole + GUARD;
    lent.count = count;
    memset(lent.whole, GUARD_FILL, count + 2 * GUARD);
    memset(lent.bytes, fill, count);
    return lent;
}

void guarded_release(const char *what, struct guarded *lent)
{
    uint8_t guard[GUARD];
    memset(guard, GUARD_FILL, GUARD);
    check_bytes(what, guard, lent->whole, GUARD);
    check_bytes(what, guard, lent->bytes + lent->count, GUARD);
    free(lent->whole);
    lent->whole = NULL;
}
