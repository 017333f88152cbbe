/*
 * The service through its header, call by call: each answer number, the values, the bytes, and that a refused call changes
 * nothing. Prints what differs and exits 1, or says how many things were checked.
 */
#include <stdio.h>
#include <stdlib.h>
#include <string.h>

#include "../hex.h"
#include "weavemitten.h"

/* The header's sizes are the source's, which tests/service.sh reads from it. */
_Static_assert(WEAVEMITTEN_SESSIONS == SOURCE_SESSIONS, "sessions");
_Static_assert(WEAVEMITTEN_NUMBERS == SOURCE_WORDS, "words");
_Static_assert(WEAVEMITTEN_VALUES == SOURCE_VALUES, "values");
_Static_assert(WEAVEMITTEN_OUTPUT == SOURCE_OUTPUT, "a session's output");
_Static_assert(WEAVEMITTEN_ZONE == SOURCE_NAME, "the zone's name");
_Static_assert(WEAVEMITTEN_RECORDS == SOURCE_RECORDS, "records");
_Static_assert(WEAVEMITTEN_SUBSCRIPTIONS == SOURCE_SUBSCRIPTIONS, "subscriptions");

#define ZONE "0473686f70076578616d706c6500"
#define A_NAME "0161" ZONE
#define A_RECORD A_NAME "00010001000000780004c0000201"
#define A_REMOVED A_NAME "00010001ffffffff0004c0000201"
/* SUBSCRIBE and the reply to it; a PUSH of one record. */
#define SUBSCRIBE_A "12343000000000000000000000400014" A_NAME "00010001"
#define REPLY_A "000c1234b0000000000000000000"
#define PUSH_A "002e0000300000000000000000000041001e" A_RECORD

static unsigned long checked, failed;

static void check(int line, const char *what, uint64_t is, uint64_t meant) {
    checked++;
    if (is == meant) return;
    failed++;
    printf("service.c:%d: %s is %llu and should be %llu\n", line, what, (unsigned long long)is, (unsigned long long)meant);
}
#define CHECK(what, meant) check(__LINE__, #what, (what), (meant))

static struct weavemitten_server server, before;
static uint64_t values[WEAVEMITTEN_VALUES];
static uint8_t output[WEAVEMITTEN_OUTPUTS + 1], kept[WEAVEMITTEN_OUTPUTS + 1];

/* Bytes written in hex. */
struct bytes {
    uint8_t *at;
    size_t count;
};

static struct bytes bytes(const char *hex) {
    struct bytes b = {bytes_of(hex, strlen(hex)), strlen(hex) / 2};
    if (b.at == NULL) abort();
    return b;
}

/* Before a call: what it may change gets other values, so that what it leaves can be told. */
static void ready(void) {
    memset(values, 0xEE, sizeof values);
    memset(output, 0xEE, sizeof output);
    memcpy(kept, output, sizeof output);
    memcpy(&before, &server, sizeof server);
}

/* After a refusal: nothing has changed. The area that holds no records doesn't count. */
static void same(int line, uint32_t answer, int has_values) {
    check(line, "a refusal", answer >= 10, 1);
    int second = before.numbers[3] != 0;
    check(line, "the server after a refusal",
          memcmp(server.numbers, before.numbers, sizeof server.numbers) == 0 && memcmp(server.zone, before.zone, sizeof server.zone) == 0 &&
              memcmp(server.subscriptions, before.subscriptions, sizeof server.subscriptions) == 0 &&
              (second ? memcmp(server.second, before.second, sizeof server.second) : memcmp(server.first, before.first, sizeof server.first)) == 0,
          1);
    check(line, "the output after a refusal", memcmp(output, kept, sizeof output) == 0, 1);
    for (int i = 0; has_values && i < WEAVEMITTEN_VALUES; i++) check(line, "a value after a refusal", values[i], 0);
}

static uint32_t message_of(uint64_t time, uint64_t session, const char *hex) {
    struct bytes m = bytes(hex);
    ready();
    uint32_t answer = weavemitten_message(&server, time, session, m.at, m.count, output, WEAVEMITTEN_OUTPUTS, values);
    free(m.at);
    return answer;
}

static uint32_t batch_of(uint64_t time, const char *hex) {
    struct bytes b = bytes(hex);
    ready();
    uint32_t answer = weavemitten_batch(&server, time, b.at, b.count, output, WEAVEMITTEN_OUTPUTS, values);
    free(b.at);
    return answer;
}

static uint32_t open_at(uint64_t time) {
    ready();
    return weavemitten_open(&server, time, values);
}

static uint32_t close_at(uint64_t time, uint64_t session) {
    ready();
    return weavemitten_close(&server, time, session);
}

static uint32_t tick_at(uint64_t time) {
    ready();
    return weavemitten_tick(&server, time, values);
}

/* After answer 2: these bytes for a session, and the byte behind them as it was. */
static void wrote(int line, int session, const char *hex) {
    struct bytes b = bytes(hex);
    const uint8_t *part = output + session * WEAVEMITTEN_OUTPUT;
    check(line, "the count", values[session], b.count);
    check(line, "the bytes", memcmp(part, b.at, b.count) == 0, 1);
    check(line, "the byte behind", part[b.count], 0xEE);
    free(b.at);
}

/* The values that are not 0: `first` at place `at`. */
static void only(int line, int at, uint64_t first) {
    for (int i = 0; i < WEAVEMITTEN_VALUES; i++) check(line, "a value", values[i], i == at ? first : 0);
}

static void begin(void) {
    struct bytes z = bytes(ZONE);
    memset(&server, 0xA5, sizeof server);
    CHECK(weavemitten_start(&server, z.at, z.count), WEAVEMITTEN_ANSWER_DONE);
    free(z.at);
}

static void starts(void) {
    struct bytes cut = bytes("0473686f70076578616d706c65"), longer = bytes(ZONE "00");
    memset(&server, 0xA5, sizeof server);
    ready();
    uint32_t none = weavemitten_start(&server, NULL, 0);
    CHECK(none, WEAVEMITTEN_ANSWER_NOT_A_NAME);
    same(__LINE__, none, 0);
    CHECK(weavemitten_start(&server, cut.at, cut.count), WEAVEMITTEN_ANSWER_NOT_A_NAME);
    CHECK(weavemitten_start(&server, longer.at, longer.count), WEAVEMITTEN_ANSWER_NOT_A_NAME);
    same(__LINE__, WEAVEMITTEN_ANSWER_NOT_A_NAME, 0);
    CHECK(memcmp(&server, &before, sizeof server) == 0, 1);
    free(cut.at);
    free(longer.at);
    begin();
    uint32_t absent = close_at(0, 0);
    CHECK(absent, WEAVEMITTEN_ANSWER_NO_SESSION);
    same(__LINE__, absent, 0);
}

/* Bench example 1 of the papers, byte by byte. */
static void first_example(void) {
    begin();
    CHECK(open_at(1000), WEAVEMITTEN_ANSWER_DONE);
    only(__LINE__, 0, 0);
    CHECK(batch_of(1000, A_RECORD), WEAVEMITTEN_ANSWER_DONE);
    only(__LINE__, 0, 0);
    CHECK(message_of(1000, 0, SUBSCRIBE_A), WEAVEMITTEN_ANSWER_SENT);
    wrote(__LINE__, 0, REPLY_A PUSH_A);
    only(__LINE__, 0, 62);
    CHECK(batch_of(1000, A_REMOVED), WEAVEMITTEN_ANSWER_SENT);
    wrote(__LINE__, 0, "002a0000300000000000000000000041001a" A_NAME "00010001fffffffe0000");
    only(__LINE__, 0, 44);
}

static void sessions(void) {
    begin();
    for (uint64_t i = 0; i < WEAVEMITTEN_SESSIONS; i++) {
        CHECK(open_at(5), WEAVEMITTEN_ANSWER_DONE);
        only(__LINE__, 0, i);
    }
    uint32_t full = open_at(6);
    CHECK(full, WEAVEMITTEN_ANSWER_ALL_OPEN);
    same(__LINE__, full, 1);
    uint32_t back = open_at(4);
    CHECK(back, WEAVEMITTEN_ANSWER_TIME_BACKWARDS);
    same(__LINE__, back, 1);
    back = close_at(4, 0);
    CHECK(back, WEAVEMITTEN_ANSWER_TIME_BACKWARDS);
    same(__LINE__, back, 0);
    uint32_t absent = close_at(6, 4);
    CHECK(absent, WEAVEMITTEN_ANSWER_NO_SESSION);
    same(__LINE__, absent, 0);
    CHECK(close_at(6, UINT64_MAX), WEAVEMITTEN_ANSWER_NO_SESSION);
    CHECK(close_at(6, 2), WEAVEMITTEN_ANSWER_DONE);
    CHECK(close_at(6, 1), WEAVEMITTEN_ANSWER_DONE);
    CHECK(close_at(6, 1), WEAVEMITTEN_ANSWER_NO_SESSION);
    CHECK(open_at(UINT64_MAX), WEAVEMITTEN_ANSWER_DONE);
    only(__LINE__, 0, 1);
}

static void messages(void) {
    begin();
    CHECK(open_at(0), WEAVEMITTEN_ANSWER_DONE);
    CHECK(open_at(0), WEAVEMITTEN_ANSWER_DONE);
    /* A query is for another part of the host; an unknown ID; a Keepalive. */
    CHECK(message_of(1, 1, "123401000001000000000000"), WEAVEMITTEN_ANSWER_NOT_OURS);
    only(__LINE__, 0, 0);
    CHECK(message_of(1, 1, "00003000000000000000000000420002abcd"), WEAVEMITTEN_ANSWER_DONE);
    only(__LINE__, 0, 0);
    CHECK(message_of(1, 1, "000130000000000000000000000100080000000100000002"), WEAVEMITTEN_ANSWER_SENT);
    wrote(__LINE__, 1, "00180001b00000000000000000000001000800003a980000ea60");
    only(__LINE__, 1, 26);
    /* Not in the zone: NOTAUTH, with a Retry Delay. */
    CHECK(message_of(1, 1, "0002300000000000000000000040000700000100010000"), WEAVEMITTEN_ANSWER_SENT);
    wrote(__LINE__, 1, "00140002b0010000000000000000000200040004" "93e0");
    CHECK(message_of(1, 1, "00023000000000000000000000400005" "0000010001"), WEAVEMITTEN_ANSWER_SENT);
    wrote(__LINE__, 1, "00140002b0090000000000000000000200040004" "93e0");
    /* RECONFIRM: the places of name, type, class and RDATA. */
    CHECK(message_of(1, 1, "000030000000000000000000" "00430009" "016100" "0001" "0002" "abcd"), WEAVEMITTEN_ANSWER_RECONFIRM);
    static const uint64_t places[WEAVEMITTEN_VALUES] = {16, 3, 19, 2, 21, 2, 23, 2};
    for (int i = 0; i < WEAVEMITTEN_VALUES; i++) CHECK(values[i], places[i]);
    CHECK(memcmp(output, kept, sizeof output) == 0, 1);
    /* Too short for a header: aborted, and the number is free again. */
    CHECK(message_of(2, 1, "00"), WEAVEMITTEN_ANSWER_ABORTED);
    only(__LINE__, 0, 0);
    uint32_t absent = message_of(2, 1, SUBSCRIBE_A);
    CHECK(absent, WEAVEMITTEN_ANSWER_NO_SESSION);
    same(__LINE__, absent, 1);
    uint32_t back = message_of(1, 0, SUBSCRIBE_A);
    CHECK(back, WEAVEMITTEN_ANSWER_TIME_BACKWARDS);
    same(__LINE__, back, 1);
}

/* The limits of lengths, and that a short output is found first. */
static void lengths(void) {
    static const uint8_t zeros[65536];
    begin();
    CHECK(open_at(9), WEAVEMITTEN_ANSWER_DONE);
    ready();
    uint32_t answer = weavemitten_message(&server, 9, 0, zeros, 65536, output, WEAVEMITTEN_OUTPUTS, values);
    CHECK(answer, WEAVEMITTEN_ANSWER_MESSAGE_TOO_LONG);
    same(__LINE__, answer, 1);
    answer = weavemitten_message(&server, 1, 7, zeros, 65536, output, WEAVEMITTEN_OUTPUTS - 1, values);
    CHECK(answer, WEAVEMITTEN_ANSWER_OUTPUT_TOO_SHORT);
    same(__LINE__, answer, 1);
    CHECK(weavemitten_message(&server, 9, 0, NULL, 0, NULL, 0, values), WEAVEMITTEN_ANSWER_OUTPUT_TOO_SHORT);
    CHECK(weavemitten_batch(&server, 1, NULL, 0, NULL, 0, values), WEAVEMITTEN_ANSWER_OUTPUT_TOO_SHORT);
    CHECK(weavemitten_batch(&server, 1, NULL, 0, output, sizeof output, values), WEAVEMITTEN_ANSWER_TIME_BACKWARDS);
    same(__LINE__, WEAVEMITTEN_ANSWER_TIME_BACKWARDS, 1);
    CHECK(weavemitten_batch(&server, 9, NULL, 0, output, sizeof output, values), WEAVEMITTEN_ANSWER_DONE);
    CHECK(weavemitten_message(&server, 9, 0, zeros, 65535, output, sizeof output, values), WEAVEMITTEN_ANSWER_NOT_OURS);
    CHECK(memcmp(output, kept, sizeof output) == 0, 1);
    CHECK(weavemitten_message(&server, 9, 0, NULL, 0, output, sizeof output, values), WEAVEMITTEN_ANSWER_ABORTED);
}

static void refused_batches(void) {
    static char many[33 * 80 + 1];
    begin();
    CHECK(open_at(0), WEAVEMITTEN_ANSWER_DONE);
    uint32_t answer = batch_of(0, A_RECORD "00");
    CHECK(answer, WEAVEMITTEN_ANSWER_UNREADABLE);
    same(__LINE__, answer, 1);
    answer = batch_of(0, A_RECORD A_NAME "00ff0001000000780000");
    CHECK(answer, WEAVEMITTEN_ANSWER_BAD_VALUE);
    same(__LINE__, answer, 1);
    for (int i = 0; i < 32; i++) strcat(many, A_RECORD);
    CHECK(batch_of(0, many), WEAVEMITTEN_ANSWER_DONE);
    strcat(many, "00");
    answer = batch_of(0, many);
    CHECK(answer, WEAVEMITTEN_ANSWER_TOO_MANY_EDITS);
    same(__LINE__, answer, 1);
    char edit[128];
    for (int i = 1; i < 40; i++) {
        snprintf(edit, sizeof edit, A_NAME "00010001000000780001%02x", i);
        CHECK(batch_of(0, edit), WEAVEMITTEN_ANSWER_DONE);
    }
    answer = batch_of(0, A_NAME "00010001000000780000");
    CHECK(answer, WEAVEMITTEN_ANSWER_STORE_FULL);
    same(__LINE__, answer, 1);
}

/* Two of three sessions subscribe: each gets its own bytes in its own part. */
static void two_sessions(void) {
    begin();
    for (int i = 0; i < 3; i++) CHECK(open_at(0), WEAVEMITTEN_ANSWER_DONE);
    CHECK(message_of(0, 0, SUBSCRIBE_A), WEAVEMITTEN_ANSWER_SENT);
    wrote(__LINE__, 0, REPLY_A);
    CHECK(message_of(0, 2, SUBSCRIBE_A), WEAVEMITTEN_ANSWER_SENT);
    wrote(__LINE__, 2, REPLY_A);
    CHECK(batch_of(0, A_RECORD), WEAVEMITTEN_ANSWER_SENT);
    wrote(__LINE__, 0, PUSH_A);
    wrote(__LINE__, 2, PUSH_A);
    for (int i = 0; i < WEAVEMITTEN_VALUES; i++) CHECK(values[i], i == 0 || i == 2 ? 48 : 0);
    CHECK(output[WEAVEMITTEN_OUTPUT], 0xEE);
    /* The same again changes nothing. */
    CHECK(batch_of(0, A_RECORD), WEAVEMITTEN_ANSWER_DONE);
    only(__LINE__, 0, 0);
    CHECK(memcmp(output, kept, sizeof output) == 0, 1);
}

static void ticks(void) {
    begin();
    CHECK(open_at(1000), WEAVEMITTEN_ANSWER_DONE);
    CHECK(open_at(2000), WEAVEMITTEN_ANSWER_DONE);
    CHECK(tick_at(30999), WEAVEMITTEN_ANSWER_DONE);
    only(__LINE__, 0, 0);
    CHECK(tick_at(31000), WEAVEMITTEN_ANSWER_DONE);
    only(__LINE__, 0, 1);
    CHECK(close_at(31000, 0), WEAVEMITTEN_ANSWER_NO_SESSION);
    CHECK(tick_at(32000), WEAVEMITTEN_ANSWER_DONE);
    only(__LINE__, 1, 1);
    uint32_t back = tick_at(31999);
    CHECK(back, WEAVEMITTEN_ANSWER_TIME_BACKWARDS);
    same(__LINE__, back, 1);
}

int main(void) {
    starts();
    first_example();
    sessions();
    messages();
    lengths();
    refused_batches();
    two_sessions();
    ticks();
    printf("service: %lu checks, %lu failed\n", checked, failed);
    return failed == 0 ? 0 : 1;
}
