/*
 * The service on damaged memory: any numbers, any octets, any lengths, any arguments. No call may crash, write outside what it
 * is lent, answer a number that is not in its list, leave a value unset, or change anything that counts when it refuses.
 *
 * Every lent part stands between two pages that can't be touched, and ends at the second one or begins at the first: an access
 * of the library outside of it stops the program. The rest of its pages is filled and looked at.
 *
 * usage: corrupt [SEED] [CALLS]
 */
#define _DEFAULT_SOURCE
#include <stdio.h>
#include <stdlib.h>
#include <string.h>
#include <sys/mman.h>
#include <unistd.h>

#include "weavemitten.h"

enum { PARTS = 11, FILLER = 0xC5, MOST_ANSWERS = 21, MOST_OUTPUT = WEAVEMITTEN_OUTPUTS + 64, MOST_BYTES = 65600 };
enum part { NUMBERS, ZONE, FIRST, SECOND, S0, S1, S2, S3, VALUES, OUTPUT, INPUT };

static const size_t sizes[PARTS] = {
    WEAVEMITTEN_NUMBERS * 8, WEAVEMITTEN_ZONE, WEAVEMITTEN_RECORDS, WEAVEMITTEN_RECORDS,
    WEAVEMITTEN_SUBSCRIPTIONS, WEAVEMITTEN_SUBSCRIPTIONS, WEAVEMITTEN_SUBSCRIPTIONS, WEAVEMITTEN_SUBSCRIPTIONS,
    WEAVEMITTEN_VALUES * 8, MOST_OUTPUT, MOST_BYTES,
};

/* A part: its pages, and where in them it stands for a call. */
static uint8_t *pages[PARTS], *lent[PARTS], *kept[PARTS];
static size_t page, room[PARTS], lengths[PARTS];
static uint64_t state;
static unsigned long calls, seen[MOST_ANSWERS];

static void stop(const char *what, const char *call, uint32_t answer) {
    printf("corrupt: call %lu, %s answered %u: %s\n", calls, call, (unsigned)answer, what);
    exit(1);
}

/* xorshift64*: the same calls for the same seed. */
static uint64_t next(void) {
    state ^= state >> 12;
    state ^= state << 25;
    state ^= state >> 27;
    return state * 0x2545F4914F6CDD1DULL;
}

static uint64_t below(uint64_t n) { return next() % n; }

static void scramble(uint8_t *at, size_t n) {
    for (size_t i = 0; i < n; i++) at[i] = (uint8_t)(next() >> 32);
}

static void map_parts(void) {
    page = (size_t)sysconf(_SC_PAGESIZE);
    for (int p = 0; p < PARTS; p++) {
        room[p] = (sizes[p] + page - 1) / page * page;
        uint8_t *all = mmap(NULL, room[p] + 2 * page, PROT_NONE, MAP_PRIVATE | MAP_ANONYMOUS, -1, 0);
        if (all == MAP_FAILED || mprotect(all + page, room[p], PROT_READ | PROT_WRITE) != 0) {
            perror("corrupt: memory");
            exit(1);
        }
        pages[p] = all + page;
        kept[p] = malloc(room[p]);
        if (kept[p] == NULL) exit(1);
        memset(pages[p], FILLER, room[p]);
    }
}

/* Where a part of this length stands: at its pages' end, or at their start. What it held goes along. */
static void place(int p, size_t length, int at_end) {
    uint8_t *to = at_end ? pages[p] + room[p] - length : pages[p];
    if (lent[p] != NULL && lent[p] != to) memmove(to, lent[p], length < lengths[p] ? length : lengths[p]);
    memset(pages[p], FILLER, (size_t)(to - pages[p]));
    memset(to + length, FILLER, (size_t)(pages[p] + room[p] - to) - length);
    lent[p] = to;
    lengths[p] = length;
}

static uint64_t *numbers(void) { return (uint64_t *)(void *)lent[NUMBERS]; }

/* ---- input */

static const uint8_t zone_name[] = {4, 's', 'h', 'o', 'p', 7, 'e', 'x', 'a', 'm', 'p', 'l', 'e', 0};

static size_t put(uint8_t *to, const void *from, size_t n) {
    memcpy(to, from, n);
    return n;
}

static size_t put16(uint8_t *to, unsigned n) {
    to[0] = (uint8_t)(n >> 8);
    to[1] = (uint8_t)n;
    return 2;
}

/* A name in the zone, of a few letters. */
static size_t put_name(uint8_t *to) {
    to[0] = 1;
    to[1] = (uint8_t)("aAbB"[below(4)]);
    return 2 + put(to + 2, zone_name, sizeof zone_name);
}

static size_t put_asked(uint8_t *to) {
    static const uint16_t types[] = {1, 5, 16, 28, 255};
    size_t n = put_name(to);
    n += put16(to + n, types[below(5)]);
    return n + put16(to + n, below(8) == 0 ? 255 : 1);
}

static size_t put_edit(uint8_t *to) {
    size_t n = put_asked(to), rdata = below(4);
    if (below(16) != 0) to[n - 3] = 1, to[n - 1] = 1; /* type and class 255 are faults */
    int removal = below(3) == 0;
    n += put16(to + n, removal ? 0xFFFF : 0);
    n += put16(to + n, removal ? 0xFFFF : (unsigned)below(3));
    n += put16(to + n, (unsigned)rdata);
    for (size_t i = 0; i < rdata; i++) to[n + i] = (uint8_t)below(3);
    return n + rdata;
}

static size_t put_message(uint8_t *to) {
    static const uint16_t types[] = {1, 2, 0x40, 0x40, 0x40, 0x41, 0x42, 0x43, 0x99};
    unsigned type = types[below(9)], directed = type == 0x42 || type == 0x43;
    memset(to, 0, 12);
    put16(to, (directed ? below(16) == 0 : below(16) != 0) ? 1 + (unsigned)below(40) : 0);
    to[2] = below(16) == 0 ? 0 : 0x30;
    size_t data = 0;
    if (type == 1) data = below(8) == 0 ? 7 : 8;
    if (type == 0x40) data = put_asked(to + 16);
    if (type == 0x42) data = put16(to + 16, 1 + (unsigned)below(40));
    if (type == 0x43) data = put_asked(to + 16), data += below(3);
    put16(to + 12, type);
    put16(to + 14, (unsigned)data);
    return 16 + data;
}

/* Input of some length in front of the untouched page: sensible, damaged, or any bytes. */
static void give(size_t (*make)(uint8_t *), unsigned most) {
    static uint8_t built[MOST_BYTES];
    size_t n = 0;
    uint64_t kind = below(64);
    if (kind == 0) n = below(4) == 0 ? 65535 + below(3) : below(MOST_BYTES + 1);
    else if (kind == 1) n = below(64);
    else for (uint64_t i = 1 + below(most); i > 0; i--) n += make(built + n);
    if (kind < 2) scramble(built, n);
    if (kind < 8 && n > 0) built[below(n)] = (uint8_t)next();
    if (kind == 2 && n > 0) n = below(n);
    place(INPUT, n, 1);
    memcpy(lent[INPUT], built, n);
}

/* ---- damage */

static void damage_number(void) {
    static const uint64_t odd[] = {0, 1, 2, 4, 16, 17, 40, 41, 255, 256, 65536, 0xFFFFFFFF, 0x100000000, 1ULL << 63, UINT64_MAX};
    uint64_t at = below(WEAVEMITTEN_NUMBERS);
    if (at == 0) numbers()[at] = below(4) == 0 ? odd[below(15)] : below(1000);
    else if (at != 1 || below(8) == 0) numbers()[at] = below(4) == 0 ? next() : odd[below(15)];
}

static void damage_octets(void) {
    int p = ZONE + (int)below(VALUES - ZONE);
    if (p == ZONE && below(8) != 0) p = FIRST;
    size_t at = below(sizes[p]), n = 1 + below(below(8) == 0 ? sizes[p] : 16);
    if (n > sizes[p] - at) n = sizes[p] - at;
    if (below(2) == 0) memset(lent[p] + at, below(2) == 0 ? 0xFF : 0, n);
    else scramble(lent[p] + at, n);
}

static void damage(void) {
    uint64_t how = below(64);
    if (how == 0) for (int p = 0; p < VALUES; p++) scramble(lent[p], sizes[p]);
    if (how == 1) weavemitten_server_start(numbers(), lent[ZONE], zone_name, sizeof zone_name);
    if (how > 1 && how < 12) damage_number();
    if (how > 11 && how < 20) damage_octets();
}

/* ---- after a call */

static int changed(int p) { return memcmp(lent[p], kept[p], lengths[p]) != 0; }

static void look_at_filler(const char *call, uint32_t answer) {
    for (int p = 0; p < PARTS; p++) {
        for (uint8_t *b = pages[p]; b < pages[p] + room[p]; b++) {
            if (b == lent[p]) b += lengths[p];
            if (b < pages[p] + room[p] && *b != FILLER) stop("it wrote outside of what it was lent", call, answer);
        }
    }
}

static void look_at_refusal(const char *call, uint32_t answer, int second) {
    for (int p = NUMBERS; p <= S3; p++) {
        if (p != (second ? FIRST : SECOND) && changed(p)) stop("a refusal changed the server", call, answer);
    }
    if (changed(OUTPUT)) stop("a refusal changed the output", call, answer);
}

/* Bytes of the output that no count states are as they were. */
static void look_at_output(const char *call, uint32_t answer, const uint64_t *counts) {
    size_t from = 0;
    for (size_t s = 0; s <= WEAVEMITTEN_SESSIONS; s++) {
        size_t at = s < WEAVEMITTEN_SESSIONS ? s * WEAVEMITTEN_OUTPUT : lengths[OUTPUT];
        if (at > lengths[OUTPUT]) at = lengths[OUTPUT];
        if (from < at && memcmp(lent[OUTPUT] + from, kept[OUTPUT] + from, at - from) != 0)
            stop("it wrote more than it states", call, answer);
        if (s < WEAVEMITTEN_SESSIONS && answer == WEAVEMITTEN_ANSWER_SENT && from < at + counts[s]) from = at + counts[s];
        if (from < at) from = at;
    }
}

static void look_at_values(const char *call, uint32_t answer, const uint64_t *values) {
    int used = 0;
    if (answer == WEAVEMITTEN_ANSWER_SENT) used = WEAVEMITTEN_SESSIONS;
    if (answer == WEAVEMITTEN_ANSWER_RECONFIRM) used = WEAVEMITTEN_VALUES;
    if (answer == WEAVEMITTEN_ANSWER_DONE && call[0] == 'o') used = 1;
    if (answer == WEAVEMITTEN_ANSWER_DONE && call[0] == 't') used = WEAVEMITTEN_SESSIONS;
    for (int i = used; i < WEAVEMITTEN_VALUES; i++) if (values[i] != 0) stop("a value that should be 0", call, answer);
    uint64_t sum = 0;
    for (int i = 0; i < used; i++) {
        sum |= values[i];
        if (call[0] == 'o' && values[i] >= WEAVEMITTEN_SESSIONS) stop("a session above 3", call, answer);
        if (call[0] == 't' && values[i] > 1) stop("a yes or no above 1", call, answer);
        if (used == WEAVEMITTEN_VALUES && i % 2 == 1 && values[i - 1] + values[i] > lengths[INPUT]) stop("a place outside of the message", call, answer);
    }
    if (answer == WEAVEMITTEN_ANSWER_SENT && sum == 0) stop("sent, and no bytes", call, answer);
}

/* ---- one call */

static const struct {
    const char *name;
    uint32_t answers[11];
} list[] = {
    {"start", {1, 20}}, {"open", {1, 11, 13}}, {"close", {1, 10, 11}},
    {"message", {1, 2, 3, 4, 5, 10, 11, 12, 18}}, {"batch", {1, 2, 11, 12, 14, 15, 16, 17}}, {"tick", {1, 11}},
};

static uint32_t call_at(int kind, uint64_t time) {
    uint64_t session = below(16) == 0 ? next() : below(5), *values = (uint64_t *)(void *)lent[VALUES];
    uint8_t *in = lengths[INPUT] == 0 && below(2) == 0 ? NULL : lent[INPUT];
    if (kind == 0) return weavemitten_server_start(numbers(), lent[ZONE], in, lengths[INPUT]);
    if (kind == 1) return weavemitten_server_open(numbers(), time, values);
    if (kind == 2) return weavemitten_server_close(numbers(), time, session);
    if (kind == 3)
        return weavemitten_server_message(numbers(), lent[ZONE], lent[FIRST], lent[SECOND], lent[S0], lent[S1], lent[S2], lent[S3],
                                          time, session, in, lengths[INPUT], lent[OUTPUT], lengths[OUTPUT], values);
    if (kind == 4)
        return weavemitten_server_batch(numbers(), lent[ZONE], lent[FIRST], lent[SECOND], lent[S0], lent[S1], lent[S2], lent[S3], time,
                                        in, lengths[INPUT], lent[OUTPUT], lengths[OUTPUT], values);
    return weavemitten_server_tick(numbers(), time, values);
}

static void one(void) {
    static const int kinds[16] = {0, 1, 1, 2, 3, 3, 3, 3, 3, 3, 3, 4, 4, 4, 4, 5};
    int kind = kinds[below(16)], second;
    const char *name = list[kind].name;
    damage();
    if (kind == 0) give(put_name, 1);
    else give(kind == 4 ? put_edit : put_message, kind == 4 ? 34 : 1);
    memset(lent[VALUES], 0xEE, sizes[VALUES]);
    for (int p = 0; p < PARTS; p++) memcpy(kept[p], lent[p], lengths[p]);
    second = numbers()[3] != 0;
    uint64_t latest = numbers()[0], time = below(16) == 0 ? next() : latest + below(100);
    uint32_t answer = call_at(kind, time);
    calls++;
    int listed = 0;
    for (int i = 0; i < 11; i++) listed |= list[kind].answers[i] == answer;
    if (answer == 0 || !listed) stop("a number that is not in its list", name, answer);
    seen[answer]++;
    if (changed(INPUT)) stop("it changed its input", name, answer);
    if (answer >= 10) look_at_refusal(name, answer, second);
    if (kind == 0 || kind == 2) memset(lent[VALUES], 0, sizes[VALUES]);
    look_at_values(name, answer, (const uint64_t *)(void *)lent[VALUES]);
    look_at_output(name, answer, (const uint64_t *)(void *)lent[VALUES]);
}

int main(int count, char **words) {
    uint64_t seed = count > 1 ? strtoull(words[1], NULL, 10) : 1, many = count > 2 ? strtoull(words[2], NULL, 10) : 200000;
    state = seed * 0x9E3779B97F4A7C15ULL + 1;
    map_parts();
    for (uint64_t i = 0; i < many; i++) {
        if (i % 256 == 0) {
            int at_end = i / 256 % 2 == 0;
            if (i > 0) look_at_filler("a call before", 0);
            for (int p = 0; p < INPUT; p++)
                place(p, p == OUTPUT && below(8) == 0 ? below(MOST_OUTPUT) : p == OUTPUT ? WEAVEMITTEN_OUTPUTS + below(2) * 64 : sizes[p], at_end);
        }
        one();
    }
    look_at_filler("a call before", 0);
    printf("corrupt: seed %llu, %lu calls;", (unsigned long long)seed, calls);
    for (int a = 1; a < MOST_ANSWERS; a++) if (seen[a] != 0) printf(" %d: %lu", a, seen[a]);
    printf("\n");
    for (int a = 1; many >= 200000 && a < MOST_ANSWERS; a++) {
        if (seen[a] == 0 && (a <= 5 || (a >= 10 && a != 19))) {
            printf("corrupt: no call answered %d\n", a);
            return 1;
        }
    }
    return 0;
}
