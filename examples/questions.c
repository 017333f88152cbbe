/* Asks libweavemitten.a its three questions, and prints what the answers mean. */
#include <stdio.h>

#include "weavemitten.h"

#define BYTES(array) (array), sizeof(array)

static const char *kind(uint32_t answer) {
    switch (answer) {
    case WEAVEMITTEN_TOO_LONG: return "too long";
    case WEAVEMITTEN_NOT_OURS: return "not ours";
    case WEAVEMITTEN_ABORT: return "abort";
    case WEAVEMITTEN_FORMERR: return "FORMERR";
    case WEAVEMITTEN_DSOTYPENI: return "DSOTYPENI";
    case WEAVEMITTEN_KEEPALIVE: return "keepalive";
    case WEAVEMITTEN_SUBSCRIBE: return "subscribe";
    case WEAVEMITTEN_UNSUBSCRIBE: return "unsubscribe";
    case WEAVEMITTEN_RECONFIRM: return "reconfirm";
    default: return "no answer of the library";
    }
}

static const char *yes_or_no(uint32_t answer) {
    switch (answer) {
    case WEAVEMITTEN_YES: return "yes";
    case WEAVEMITTEN_NO: return "no";
    case WEAVEMITTEN_NO_NAME: return "one is no name";
    default: return "no answer of the library";
    }
}

static void ask_kind(const char *what, const uint8_t *message, size_t length) {
    uint32_t answer = weavemitten_message_kind(message, length);
    printf("%s: %u, %s\n", what, (unsigned)answer, kind(answer));
}

static void ask_same(const char *what, const uint8_t *a, size_t a_length, const uint8_t *b, size_t b_length) {
    uint32_t answer = weavemitten_same_name(a, a_length, b, b_length);
    printf("%s: %u, %s\n", what, (unsigned)answer, yes_or_no(answer));
}

static void ask_match(const char *what, const uint8_t *asked, size_t asked_length, uint16_t asked_type,
                      uint16_t asked_class, const uint8_t *name, size_t name_length, uint16_t type,
                      uint16_t record_class) {
    uint32_t answer =
        weavemitten_match(asked, asked_length, asked_type, asked_class, name, name_length, type, record_class);
    printf("%s: %u, %s\n", what, (unsigned)answer, yes_or_no(answer));
}

/* a.shop.example, in two spellings; and a name with a byte behind it. */
static const uint8_t lower[] = "\1a\4shop\7example";
static const uint8_t upper[] = "\1A\4Shop\7EXAMPLE";
static const uint8_t other[] = "\1b\4shop\7example";
static const uint8_t behind[] = "\1a\4shop\7example\0";
static const uint8_t star[] = "\1*\4shop\7example";

static uint8_t too_long[65536];

int main(void) {
    static const uint8_t query[12] = {0x12, 0x34, 0x01, 0x00, 0, 1};
    static const uint8_t response[] = {0x12, 0x34, 0xb0, 0x00, 0, 0, 0, 0, 0, 0, 0, 0, 0, 1, 0, 0};
    static const uint8_t no_tlv[12] = {0x12, 0x34, 0x30, 0x00};
    static const uint8_t padding[] = {0x12, 0x34, 0x30, 0x00, 0, 0, 0, 0, 0, 0, 0, 0, 0, 3, 0, 0};
    static const uint8_t keepalive[] = {0x12, 0x34, 0x30, 0, 0, 0, 0,    0,    0, 0, 0,    0,
                                        0,    1,    0,    8, 0, 0, 0x3a, 0x98, 0, 0, 0xea, 0x60};
    static const uint8_t subscribe[] = {0x12, 0x34, 0x30, 0,   0,   0,   0,   0, 0,   0,   0,   0,   0,   0x40, 0, 0x14, 1, 'a',
                                        4,    's',  'h',  'o', 'p', 7,   'e', 'x', 'a', 'm', 'p', 'l', 'e', 0,    0, 1,    0, 1};
    static const uint8_t unsubscribe[] = {0, 0, 0x30, 0, 0, 0, 0, 0, 0, 0, 0, 0, 0, 0x42, 0, 2, 0x12, 0x34};
    static const uint8_t reconfirm[] = {0, 0, 0x30, 0, 0, 0, 0, 0, 0, 0, 0, 0, 0, 0x43, 0, 9, 1, 'a', 0, 0, 1, 0, 1, 192, 0};

    ask_kind("no bytes at all", NULL, 0);
    ask_kind("a query", BYTES(query));
    ask_kind("a response", BYTES(response));
    ask_kind("a header alone", BYTES(no_tlv));
    ask_kind("a first TLV of type 3", BYTES(padding));
    ask_kind("a Keepalive", BYTES(keepalive));
    ask_kind("a SUBSCRIBE", BYTES(subscribe));
    ask_kind("an UNSUBSCRIBE", BYTES(unsubscribe));
    ask_kind("a RECONFIRM", BYTES(reconfirm));
    ask_kind("65,535 zero bytes", too_long, 65535);
    ask_kind("65,536 zero bytes", too_long, 65536);

    ask_same("two spellings", BYTES(lower), BYTES(upper));
    ask_same("two names", BYTES(lower), BYTES(other));
    ask_same("a byte behind a name", BYTES(lower), BYTES(behind));
    ask_same("nothing and a name", NULL, 0, BYTES(lower));
    ask_same("an asterisk is a plain label", BYTES(star), BYTES(lower));

    ask_match("A asked, A there", BYTES(lower), 1, 1, BYTES(upper), 1, 1);
    ask_match("A asked, AAAA there", BYTES(lower), 1, 1, BYTES(upper), 28, 1);
    ask_match("A asked, CNAME there", BYTES(lower), 1, 1, BYTES(upper), 5, 1);
    ask_match("CNAME asked, A there", BYTES(lower), 5, 1, BYTES(upper), 1, 1);
    ask_match("all types asked, SRV there", BYTES(lower), 255, 1, BYTES(upper), 33, 1);
    ask_match("all classes asked", BYTES(lower), 33, 255, BYTES(upper), 33, 3);
    ask_match("another class", BYTES(lower), 255, 1, BYTES(upper), 5, 3);
    ask_match("another name", BYTES(lower), 255, 255, BYTES(other), 1, 1);
    ask_match("no name", BYTES(behind), 255, 255, BYTES(lower), 1, 1);
    return 0;
}
