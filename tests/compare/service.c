/*
 * The C library asked in lines: reads those of the replay program from standard input and prints what the replay program
 * prints. With the argument "service" lines may be of any length, and there are more of them: start with a zone's name in hex,
 * lend with how many bytes of output the calls after it are lent; a RECONFIRM prints the places of its parts.
 *
 * What the header says beside is held to at every call: bytes beyond the stated counts keep their values, a refusal changes
 * no number of the server, and values that mean nothing are 0. Where that fails, a line says so and the exit status is 3.
 */
#define _POSIX_C_SOURCE 200809L
#include <inttypes.h>
#include <stdbool.h>
#include <stdio.h>
#include <stdlib.h>
#include <string.h>

#include "../hex.h"
#include "weavemitten.h"

enum { MOST_LINE = 32768, FIELDS = 4, LEAST_REFUSAL = 10 };

enum verb { OPEN, CLOSE, MESSAGE, BATCH, TICK };
static const char *const verbs[] = {"open", "close", "msg", "batch", "tick"};

struct field {
    const char *at;
    size_t length;
};

struct call {
    enum verb verb;
    uint64_t time, session;
    uint8_t *bytes;
    size_t length;
};

/* A server, the output that is lent to its calls, and what must stand there where no call has written. */
struct service {
    struct weavemitten_server server;
    uint8_t *output, *kept;
    size_t lent;
    uint64_t values[WEAVEMITTEN_VALUES];
    bool wide;
};

static void fail(const char *what) {
    fflush(stdout);
    fprintf(stderr, "compare-service: %s\n", what);
    exit(3);
}

static void *room(size_t bytes) {
    void *at = malloc(bytes == 0 ? 1 : bytes);
    if (at == NULL) fail("no memory");
    return at;
}

static void lend(struct service *s, size_t bytes) {
    free(s->output);
    free(s->kept);
    s->lent = bytes;
    s->output = room(bytes);
    s->kept = room(bytes);
    for (size_t i = 0; i < bytes; i++) s->kept[i] = s->output[i] = (uint8_t)(i * 7 + 3);
}

/* ---- reading */

/* The fields of a line; more than FIELDS where there are too many. */
static size_t split(const char *line, size_t length, struct field *fields) {
    size_t count = 0, start = 0;
    for (size_t i = 0; i <= length; i++) {
        if (i < length && line[i] != '\t') continue;
        if (count == FIELDS) return FIELDS + 1;
        fields[count++] = (struct field){line + start, i - start};
        start = i + 1;
    }
    return count;
}

static bool is(struct field f, const char *text) {
    return f.length == strlen(text) && memcmp(f.at, text, f.length) == 0;
}

/* A decimal number of at most 64 bits without leading zeros. */
static bool read_number(struct field f, uint64_t *number) {
    if (f.length == 0 || (f.length > 1 && f.at[0] == '0')) return false;
    *number = 0;
    for (size_t i = 0; i < f.length; i++) {
        if (f.at[i] < '0' || f.at[i] > '9') return false;
        uint64_t digit = (uint64_t)(f.at[i] - '0');
        if (*number > (UINT64_MAX - digit) / 10) return false;
        *number = *number * 10 + digit;
    }
    return true;
}

/* Bytes in hex; none are NULL, which every function takes with a count of 0. */
static bool read_bytes(struct field f, uint8_t **bytes, size_t *length) {
    *bytes = bytes_of(f.at, f.length);
    *length = f.length / 2;
    if (*bytes != NULL && f.length == 0) {
        free(*bytes);
        *bytes = NULL;
        return true;
    }
    return *bytes != NULL;
}

static bool read_call(const struct field *f, size_t count, struct call *c) {
    *c = (struct call){0};
    while (!is(f[0], verbs[c->verb])) {
        if (c->verb == TICK) return false;
        c->verb++;
    }
    static const size_t counts[] = {2, 3, 4, 3, 2};
    if (count != counts[c->verb] || !read_number(f[1], &c->time)) return false;
    if ((c->verb == CLOSE || c->verb == MESSAGE) && !read_number(f[2], &c->session)) return false;
    if (c->verb == MESSAGE) return read_bytes(f[3], &c->bytes, &c->length);
    if (c->verb == BATCH) return read_bytes(f[2], &c->bytes, &c->length);
    return true;
}

/* ---- calling */

static uint32_t ask(struct service *s, const struct call *c) {
    switch (c->verb) {
    case OPEN: return weavemitten_open(&s->server, c->time, s->values);
    case CLOSE: return weavemitten_close(&s->server, c->time, c->session);
    case MESSAGE:
        return weavemitten_message(&s->server, c->time, c->session, c->bytes, c->length, s->output, s->lent, s->values);
    case BATCH: return weavemitten_batch(&s->server, c->time, c->bytes, c->length, s->output, s->lent, s->values);
    case TICK: return weavemitten_tick(&s->server, c->time, s->values);
    }
    return 0;
}

/* How many of the values a call's answer may have something in. */
static size_t meant(enum verb verb, uint32_t answer) {
    if (answer == WEAVEMITTEN_ANSWER_RECONFIRM) return WEAVEMITTEN_VALUES;
    if (answer == WEAVEMITTEN_ANSWER_SENT) return WEAVEMITTEN_SESSIONS;
    if (answer != WEAVEMITTEN_ANSWER_DONE) return 0;
    return verb == OPEN ? 1 : verb == TICK ? WEAVEMITTEN_SESSIONS : 0;
}

static void check_values(const struct service *s, const struct call *c, uint32_t answer) {
    if (c->verb == CLOSE) return;
    for (size_t i = meant(c->verb, answer); i < WEAVEMITTEN_VALUES; i++) {
        if (s->values[i] != 0) fail("a value that means nothing is not 0");
    }
    for (size_t i = 0; i < WEAVEMITTEN_SESSIONS; i++) {
        if (answer == WEAVEMITTEN_ANSWER_SENT && s->values[i] > WEAVEMITTEN_OUTPUT) fail("a count over a session's output");
        if (c->verb == TICK && s->values[i] > 1) fail("tick's values are 0 or 1");
        if (c->verb == MESSAGE && answer == WEAVEMITTEN_ANSWER_SENT && i != c->session && s->values[i] != 0) {
            fail("a message wrote for another session");
        }
    }
    if (c->verb == OPEN && s->values[0] >= WEAVEMITTEN_SESSIONS) fail("open gave a session that there is not");
}

/* The output is what it was but for the stated counts at the start of each session's part. */
static void check_output(struct service *s, uint32_t answer) {
    if (answer == WEAVEMITTEN_ANSWER_SENT) {
        if (s->lent < WEAVEMITTEN_OUTPUTS) fail("bytes are stated in too short an output");
        for (size_t i = 0; i < WEAVEMITTEN_SESSIONS; i++) {
            memcpy(s->kept + i * WEAVEMITTEN_OUTPUT, s->output + i * WEAVEMITTEN_OUTPUT, s->values[i]);
        }
    }
    if (memcmp(s->kept, s->output, s->lent) != 0) fail("bytes beyond the stated counts have changed");
}

/* ---- printing */

static void print_hex(const uint8_t *bytes, uint64_t count) {
    static const char digits[] = "0123456789abcdef";
    for (uint64_t i = 0; i < count; i++) {
        putchar(digits[bytes[i] >> 4]);
        putchar(digits[bytes[i] & 15]);
    }
}

static void print_sent(const struct service *s, enum verb verb, uint64_t session) {
    printf("%s\t2\t%" PRIu64 "\t", verbs[verb], session);
    print_hex(s->output + session * WEAVEMITTEN_OUTPUT, s->values[session]);
    putchar('\n');
}

/* Batch and tick: a line for each session with bytes or ended, or one line. */
static void print_for_all(const struct service *s, enum verb verb, uint32_t answer) {
    bool some = false;
    for (uint64_t i = 0; i < WEAVEMITTEN_SESSIONS; i++) {
        if (s->values[i] == 0) continue;
        some = true;
        if (verb == BATCH) print_sent(s, verb, i);
        else printf("tick\t4\t%" PRIu64 "\t-\n", i);
    }
    if (!some) printf("%s\t%" PRIu32 "\t-\t-\n", verbs[verb], answer);
}

static void print_for_one(const struct service *s, const struct call *c, uint32_t answer) {
    if (answer == WEAVEMITTEN_ANSWER_SENT) {
        print_sent(s, c->verb, c->session);
        return;
    }
    printf("%s\t%" PRIu32 "\t", verbs[c->verb], answer);
    if (c->verb != OPEN) printf("%" PRIu64 "\t", c->session);
    else if (answer == WEAVEMITTEN_ANSWER_DONE) printf("%" PRIu64 "\t", s->values[0]);
    else printf("-\t");
    if (s->wide && answer == WEAVEMITTEN_ANSWER_RECONFIRM) {
        for (size_t i = 0; i < WEAVEMITTEN_VALUES; i++) printf("%s%" PRIu64, i == 0 ? "" : ",", s->values[i]);
        putchar('\n');
    } else {
        printf("-\n");
    }
}

/* ---- lines */

static void carry_out(struct service *s, const struct call *c) {
    uint64_t before[WEAVEMITTEN_NUMBERS];
    memcpy(before, s->server.numbers, sizeof before);
    for (size_t i = 0; i < WEAVEMITTEN_VALUES; i++) s->values[i] = c->verb == CLOSE ? 0 : 0xa5a5a5a5a5a5a5a5;
    uint32_t answer = ask(s, c);
    if (answer >= LEAST_REFUSAL && memcmp(before, s->server.numbers, sizeof before) != 0) {
        fail("a refused call has changed a number of the server");
    }
    check_values(s, c, answer);
    check_output(s, answer);
    if (c->verb == BATCH || c->verb == TICK) print_for_all(s, c->verb, answer);
    else print_for_one(s, c, answer);
}

static bool start(struct service *s, struct field zone) {
    uint8_t *bytes;
    size_t length;
    if (!read_bytes(zone, &bytes, &length)) return false;
    printf("start\t%" PRIu32 "\t-\t-\n", weavemitten_start(&s->server, bytes, length));
    free(bytes);
    return true;
}

/* Whether the line is one that only the service has. */
static bool beyond(struct service *s, const struct field *f, size_t count) {
    uint64_t bytes;
    if (!s->wide || count != 2) return false;
    if (is(f[0], "start")) return start(s, f[1]);
    if (!is(f[0], "lend") || !read_number(f[1], &bytes)) return false;
    lend(s, bytes < 2 * WEAVEMITTEN_OUTPUTS ? (size_t)bytes : 2 * WEAVEMITTEN_OUTPUTS);
    printf("lend\t1\t-\t-\n");
    return true;
}

static void take_line(struct service *s, const char *line, size_t length) {
    struct field fields[FIELDS];
    struct call c = {0};
    size_t count = s->wide || length <= MOST_LINE ? split(line, length, fields) : 0;
    if (count == 0 || count > FIELDS) {
        printf("?\t19\t-\t-\n");
    } else if (!beyond(s, fields, count)) {
        if (read_call(fields, count, &c)) carry_out(s, &c);
        else printf("?\t19\t-\t-\n");
    }
    free(c.bytes);
}

int main(int argc, char **argv) {
    static const uint8_t zone[] = "\4shop\7example";
    static struct service s;
    if (argc > 2 || (argc == 2 && strcmp(argv[1], "service") != 0)) {
        fprintf(stderr, "usage: compare-service [service] < LINES\n");
        return 2;
    }
    s.wide = argc == 2;
    memset(&s.server, 0xa5, sizeof s.server);
    lend(&s, WEAVEMITTEN_OUTPUTS);
    if (weavemitten_start(&s.server, zone, sizeof zone) != WEAVEMITTEN_ANSWER_DONE) fail("start is refused");
    char *line = NULL;
    size_t space = 0;
    ssize_t got;
    while ((got = getline(&line, &space, stdin)) >= 0) {
        size_t length = (size_t)got;
        take_line(&s, line, length > 0 && line[length - 1] == '\n' ? length - 1 : length);
    }
    free(line);
    free(s.output);
    free(s.kept);
    return ferror(stdin) || fflush(stdout) != 0 ? 1 : 0;
}
