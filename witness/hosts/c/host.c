/*
 * Document 01's program over the C interface: a budget, a head and a memory
 * from standard input, two lines to standard output. It is held against the
 * second program, so that the library is judged as a C host links it.
 */
#include <stdio.h>

#include "../../../include/trnadulek.h"

enum { LEAD = 4 + TRNADULEK_HEAD_SIZE, INPUT = LEAD + TRNADULEK_MEMORY_SIZE };

static uint8_t input[INPUT + 1];

static unsigned pair(const uint8_t *bytes)
{
    return bytes[0] * 256u + bytes[1];
}

static int refused(unsigned code)
{
    printf("%u\n", code);
    return 0;
}

int main(void)
{
    size_t got = fread(input, 1, sizeof input, stdin);
    uint32_t budget = (uint32_t)pair(input) * 65536u + pair(input + 2);
    uint8_t state[TRNADULEK_STATE_SIZE];
    uint32_t spent, steps;
    unsigned code;

    puts("code spent steps AF BC DE HL SP PC ime mode");
    if (got != INPUT)
        return refused(6);
    code = trnadulek_load_head(input + 4, TRNADULEK_HEAD_SIZE, state);
    if (code != 0)
        return refused(code);
    code = trnadulek_run(state, input + LEAD, TRNADULEK_MEMORY_SIZE, budget, &spent, &steps);
    if (code == 1 || code == 2 || code == 5)
        return refused(code);
    printf("%u %lu %lu", code, (unsigned long)spent, (unsigned long)steps);
    for (int at = 0; at < 12; at += 2)
        printf(" %04X", pair(state + at));
    printf(" %u %u\n", (unsigned)state[12], (unsigned)state[13]);
    return 0;
}
