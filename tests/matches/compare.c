/*
 * Holds the library's third question, and through it the second, to cases of an independent program: lines of the asked name in
 * hex, type and class, a record's name in hex, type and class, and the answer, parted by tabs, on standard input.
 * Prints the first difference and exits 1; exits 1 too where the input is not what the comparison is about.
 */
#define _POSIX_C_SOURCE 200809L
#include <stdio.h>
#include <stdlib.h>
#include <string.h>

#include "../hex.h"
#include "weavemitten.h"

enum { FIELDS = 7, LEAST_LINES = 5000 };

/* The fields of a line, which are ended by NULs then; how many there are. */
static int parted(char *line, char *fields[FIELDS]) {
    int n = 0;
    line[strcspn(line, "\n")] = 0;
    for (char *at = line; at != NULL && n < FIELDS; n++) {
        fields[n] = at;
        at = strchr(at, '\t');
        if (at != NULL) *at++ = 0;
    }
    return n;
}

static unsigned number(const char *digits) { return (unsigned)strtoul(digits, NULL, 10); }

int main(void) {
    unsigned long lines = 0, of_answer[4] = {0};
    char *line = NULL, *f[FIELDS];
    size_t room = 0;
    while (getline(&line, &room, stdin) >= 0) {
        lines++;
        if (parted(line, f) != FIELDS || number(f[6]) < 1 || number(f[6]) > 3) {
            printf("line %lu is no case\n", lines);
            return 1;
        }
        size_t asked_length = strlen(f[0]) / 2, name_length = strlen(f[3]) / 2;
        uint8_t *asked = bytes_of(f[0], strlen(f[0])), *name = bytes_of(f[3], strlen(f[3]));
        if (asked == NULL || name == NULL) {
            printf("line %lu has no whole bytes\n", lines);
            return 1;
        }
        uint32_t answer = weavemitten_match(asked, asked_length, (uint16_t)number(f[1]), (uint16_t)number(f[2]), name,
                                            name_length, (uint16_t)number(f[4]), (uint16_t)number(f[5]));
        uint32_t same = weavemitten_same_name(asked, asked_length, name, name_length);
        int together = same == 1 ? answer == 1 || answer == 2 : answer == same;
        if (answer != number(f[6]) || !together) {
            printf("line %lu: the library says %u (same name: %u), the other program %s\n", lines, (unsigned)answer, (unsigned)same, f[6]);
            return 1;
        }
        of_answer[answer]++;
        free(asked);
        free(name);
    }
    free(line);
    printf("%lu questions, no difference: 1: %lu 2: %lu 3: %lu\n", lines, of_answer[1], of_answer[2], of_answer[3]);
    if (lines < LEAST_LINES || of_answer[1] == 0 || of_answer[2] == 0 || of_answer[3] == 0) {
        printf("too few questions, or an answer that none has\n");
        return 1;
    }
    return 0;
}
