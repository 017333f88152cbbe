/* Hex fields of the lines that the independent program writes. */
#ifndef HEX_H
#define HEX_H

#include <stddef.h>
#include <stdint.h>
#include <stdlib.h>

static int nibble(char c) {
    if (c >= '0' && c <= '9') return c - '0';
    if (c >= 'a' && c <= 'f') return c - 'a' + 10;
    return -1;
}

/*
 * The bytes of `digits` hex digits at `hex`, or NULL where they are no whole bytes. The memory ends where the bytes do, so that a
 * checker sees a byte read past them. The caller frees it.
 */
static uint8_t *bytes_of(const char *hex, size_t digits) {
    uint8_t *bytes = malloc(digits < 2 ? 1 : digits / 2);
    if (bytes == NULL) abort();
    for (size_t i = 0; i < digits; i += 2) {
        int high = nibble(hex[i]), low = i + 1 < digits ? nibble(hex[i + 1]) : -1;
        if (high < 0 || low < 0) {
            free(bytes);
            return NULL;
        }
        bytes[i / 2] = (uint8_t)(high * 16 + low);
    }
    return bytes;
}

#endif
