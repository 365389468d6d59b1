/*
 * The assembler of M-103 over the C interface: the lines on standard input are
 * assembled to standard output, from the first address, in hexadecimal digits, that
 * the argument is. It is held against binutils' assembler, so that the library is
 * judged as a C host links it.
 */
#include <stdio.h>
#include <stdlib.h>

#include "../../../include/trnadulek.h"

static int complain(const char *what)
{
    fprintf(stderr, "assembler: %s\n", what);
    return 2;
}

/* All of standard input, in room that is made twice as large where it is full; NULL if there is none to be had. */
static uint8_t *whole_input(size_t *got)
{
    size_t room = 65536;
    uint8_t *text = malloc(room);

    *got = 0;
    while (text != NULL && (*got += fread(text + *got, 1, room - *got, stdin)) == room)
        text = realloc(text, room *= 2);
    return text;
}

/* Whether all of a word is an address. */
static int is_address(const char *word, unsigned long *value)
{
    char *rest;

    *value = strtoul(word, &rest, 16);
    return rest != word && *rest == '\0' && *value <= UINT16_MAX;
}

int main(int count, char **words)
{
    unsigned long first;
    size_t got, line, length;
    uint8_t *text, *bytes;
    unsigned code;

    if (count != 2 || !is_address(words[1], &first))
        return complain("usage: assembler FIRST, from 0 to FFFF");
    text = whole_input(&got);
    bytes = malloc(got + 1); /* a line has more characters than bytes */
    if (text == NULL || bytes == NULL || ferror(stdin))
        return complain("the text cannot be read");
    code = trnadulek_assemble(text, got, (uint16_t)first, bytes, got, &line, &length);
    if (code != 0) {
        fprintf(stderr, "assembler: line %lu is refused with %u\n", (unsigned long)line, code);
        return 1;
    }
    if (fwrite(bytes, 1, length, stdout) != length || fflush(stdout) != 0)
        return complain("the bytes cannot be written");
    return 0;
}
