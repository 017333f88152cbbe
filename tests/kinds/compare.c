/*
 * Holds the library to messages whose kind an independent program says: lines "HEX<TAB>KIND" on standard input.
 * Prints the first difference and exits 1; exits 1 too where the input is not what the comparison is about.
 */
#define _POSIX_C_SOURCE 200809L
#include <stdio.h>
#include <stdlib.h>
#include <string.h>

#include "../hex.h"
#include "weavemitten.h"

enum { LEAST_LINES = 20000, MOST_BYTES = 65535, KINDS = 64 };

int main(void) {
    unsigned long lines = 0, longest = 0, too_long = 0, of_kind[KINDS] = {0};
    char *line = NULL;
    size_t room = 0;
    ssize_t got;
    while ((got = getline(&line, &room, stdin)) >= 0) {
        lines++;
        char *tab = memchr(line, '\t', (size_t)got);
        if (tab == NULL) {
            printf("line %lu has no tab\n", lines);
            return 1;
        }
        size_t digits = (size_t)(tab - line);
        uint8_t *bytes = bytes_of(line, digits);
        char *end;
        unsigned long expected = strtoul(tab + 1, &end, 10);
        if (bytes == NULL || end == tab + 1 || *end != '\n' || expected >= KINDS) {
            printf("line %lu is no hex, tab and kind\n", lines);
            return 1;
        }
        uint32_t answer = weavemitten_message_kind(digits == 0 ? NULL : bytes, digits / 2);
        if (answer != expected) {
            printf("line %lu: the library says %u, the other program %lu: %.*s\n", lines, (unsigned)answer, expected,
                   digits > 400 ? 400 : (int)digits, line);
            return 1;
        }
        longest += digits / 2 == MOST_BYTES;
        too_long += digits / 2 == MOST_BYTES + 1;
        of_kind[expected]++;
        free(bytes);
    }
    free(line);
    printf("%lu messages, no difference:", lines);
    for (int k = 0; k < KINDS; k++) {
        if (of_kind[k] != 0) printf(" %d: %lu", k, of_kind[k]);
    }
    printf("; of 65,535 bytes: %lu, of 65,536: %lu\n", longest, too_long);
    if (lines < LEAST_LINES || longest == 0 || too_long == 0) {
        printf("too few messages, or none at the length limit\n");
        return 1;
    }
    static const int kinds[] = {18, 40, 41, 42, 43, 44, 45, 46, 47};
    for (size_t i = 0; i < sizeof kinds / sizeof *kinds; i++) {
        if (of_kind[kinds[i]] == 0) {
            printf("no message of kind %d\n", kinds[i]);
            return 1;
        }
    }
    return 0;
}
