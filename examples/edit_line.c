#include "edit_line.h"

#include <arpa/inet.h>
#include <errno.h>
#include <stdlib.h>
#include <string.h>

static const struct {
    const char *word;
    unsigned long number;
} types[] = {{"A", 1},    {"NS", 2},    {"CNAME", 5}, {"PTR", 12},    {"TXT", 16},
             {"KEY", 25}, {"AAAA", 28}, {"SRV", 33},  {"DNSKEY", 48}};

/* The word's number in decimal, at most `most`; -1 where it is none. */
static long long number_of(const char *word, unsigned long most) {
    char *end;
    if (*word < '0' || *word > '9') return -1;
    errno = 0;
    unsigned long value = strtoul(word, &end, 10);
    return errno == 0 && *end == '\0' && value <= most ? (long long)value : -1;
}

static long long type_of(const char *word) {
    for (size_t i = 0; i < sizeof types / sizeof *types; i++)
        if (strcmp(word, types[i].word) == 0) return (long long)types[i].number;
    return number_of(word, 65535);
}

static long long class_of(const char *word) { return strcmp(word, "IN") == 0 ? 1 : number_of(word, 65535); }

size_t name_of_text(const char *text, uint8_t name[255]) {
    size_t at = 0;
    if (strcmp(text, ".") == 0) text++;
    while (*text != '\0') {
        size_t label = strcspn(text, ".");
        if (label == 0 || label > 63 || at + 1 + label + 1 > 255) return 0;
        name[at++] = (uint8_t)label;
        memcpy(name + at, text, label);
        at += label;
        text += label + (text[label] == '.');
    }
    name[at++] = 0;
    return at;
}

static int nibble_of(char c) {
    if (c >= '0' && c <= '9') return c - '0';
    if (c >= 'a' && c <= 'f') return c - 'a' + 10;
    if (c >= 'A' && c <= 'F') return c - 'A' + 10;
    return -1;
}

/* Hex digits as bytes; -1 where they are no whole bytes, or more than there is room for. */
static long long hex_of(const char *text, uint8_t *bytes, size_t room) {
    size_t digits = strlen(text);
    if (digits % 2 != 0 || digits / 2 > room) return -1;
    for (size_t i = 0; i < digits / 2; i++) {
        int high = nibble_of(text[2 * i]), low = nibble_of(text[2 * i + 1]);
        if (high < 0 || low < 0) return -1;
        bytes[i] = (uint8_t)(high * 16 + low);
    }
    return (long long)(digits / 2);
}

/* A TXT string: its length and its bytes. */
static long long text_of(const char *text, uint8_t *bytes, size_t room) {
    size_t length = strlen(text);
    if (length > 255 || length + 1 > room) return -1;
    bytes[0] = (uint8_t)length;
    memcpy(bytes + 1, text, length);
    return (long long)length + 1;
}

static long long rdata_of(long long type, const char *text, uint8_t *bytes, size_t room) {
    size_t length;
    switch (type) {
    case 1: return room >= 4 && inet_pton(AF_INET, text, bytes) == 1 ? 4 : -1;
    case 28: return room >= 16 && inet_pton(AF_INET6, text, bytes) == 1 ? 16 : -1;
    case 2:
    case 5:
    case 12: length = room >= 255 ? name_of_text(text, bytes) : 0; return length > 0 ? (long long)length : -1;
    case 16: return text_of(text, bytes, room);
    default: return hex_of(text, bytes, room);
    }
}

/* The word at *rest, cut off there; "" at the end. */
static char *word_of(char **rest) {
    char *word = *rest + strspn(*rest, " \t");
    char *end = word + strcspn(word, " \t");
    *rest = *end == '\0' ? end : end + 1;
    *end = '\0';
    return word;
}

/* `bytes` of the number, the greatest first. */
static size_t put_number(uint8_t *to, size_t at, uint64_t number, int bytes) {
    for (int i = bytes - 1; i >= 0; i--) to[at++] = (uint8_t)(number >> (8 * i));
    return at;
}

size_t edit_of_line(char *line, uint8_t edit[EDIT_ROOM], const char **why) {
    char *rest = line;
    const char *verb = word_of(&rest);
    int is_put = strcmp(verb, "put") == 0;
    *why = "it begins with put or delete";
    if (!is_put && strcmp(verb, "delete") != 0) return 0;
    size_t at = name_of_text(word_of(&rest), edit);
    *why = "the name is no name";
    if (at == 0) return 0;
    long long ttl = is_put ? number_of(word_of(&rest), 0xfffffffful) : 0xffffffffll;
    *why = "the TTL is no number";
    if (ttl < 0) return 0;
    long long class = class_of(word_of(&rest)), type = type_of(word_of(&rest));
    *why = "the class or the type is not known";
    if (class < 0 || type < 0) return 0;
    at = put_number(edit, at, (uint64_t)type, 2);
    at = put_number(edit, at, (uint64_t)class, 2);
    at = put_number(edit, at, (uint64_t)ttl, 4);
    long long length = rdata_of(type, rest + strspn(rest, " \t"), edit + at + 2, EDIT_ROOM - at - 2);
    *why = "the RDATA does not fit its type";
    if (length < 0) return 0;
    return put_number(edit, at, (uint64_t)length, 2) + (size_t)length;
}
