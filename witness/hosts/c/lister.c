/*
 * The listing of M-101 and M-102 over the C interface: the part on standard input
 * is listed to standard output, from the first address, in hexadecimal digits, and
 * in the edition that the arguments are. It is held against binutils' disassembler,
 * which knows edition 2 and no refusals, so that the library is judged as a C host
 * links it.
 */
#include <stdio.h>
#include <stdlib.h>

#include "../../../include/trnadulek.h"

/* A line lists at least one byte, and none is longer than that of LD HL,SP+-$05. */
enum { LONGEST_LINE = 24 };

static int complain(const char *what)
{
    fprintf(stderr, "lister: %s\n", what);
    return 2;
}

/* All of standard input, in room that is made twice as large where it is full; NULL if there is none to be had. */
static uint8_t *whole_input(size_t *got)
{
    size_t room = 65536;
    uint8_t *part = malloc(room);

    *got = 0;
    while (part != NULL && (*got += fread(part + *got, 1, room - *got, stdin)) == room)
        part = realloc(part, room *= 2);
    return part;
}

/* Whether all of a word is a number, and none above the limit. */
static int is_number(const char *word, int base, unsigned long limit, unsigned long *value)
{
    char *rest;

    *value = strtoul(word, &rest, base);
    return rest != word && *rest == '\0' && *value <= limit;
}

int main(int count, char **words)
{
    unsigned long first, edition;
    size_t got, length, room;
    uint8_t *part, *text;
    unsigned code;

    if (count != 3 || !is_number(words[1], 16, UINT16_MAX, &first) || !is_number(words[2], 10, UINT32_MAX, &edition))
        return complain("usage: lister FIRST EDITION, from 0 to FFFF and from 0 to 4294967295");
    part = whole_input(&got);
    room = got * LONGEST_LINE;
    text = malloc(room + 1);
    if (part == NULL || text == NULL || ferror(stdin))
        return complain("the part cannot be read");
    code = trnadulek_list(part, got, (uint16_t)first, (uint32_t)edition, text, room, &length);
    if (code != 0) {
        fprintf(stderr, "lister: refused with %u\n", code);
        return 1;
    }
    if (fwrite(text, 1, length, stdout) != length || fflush(stdout) != 0)
        return complain("the listing cannot be written");
    return 0;
}
