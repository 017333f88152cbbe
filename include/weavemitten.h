/*
 * Weavemitten: the server's side of DNS Push Notifications (RFC 8765 over RFC 8490), and three questions that it asks of
 * bytes.
 *
 * The functions keep nothing: all memory is lent by the caller, and what a function is lent must not overlap. A byte slice is
 * a pointer and a count of bytes; a count of 0 is allowed with any pointer, NULL too. Every answer is a number that is never
 * 0. C11 or C++11, on a machine whose size_t has 64 bits. Link libweavemitten.a, which calls memcpy and memset and nothing
 * else: a host without a C library has to bring these two.
 */
#ifndef WEAVEMITTEN_H
#define WEAVEMITTEN_H

#include <stddef.h>
#include <stdint.h>

#ifdef __cplusplus
extern "C" {
#endif

/* The kinds of a message, by its bytes alone. */
enum weavemitten_kind {
    WEAVEMITTEN_TOO_LONG = 18,    /* more than 65,535 bytes */
    WEAVEMITTEN_NOT_OURS = 40,    /* the opcode is not 6: another part of the host handles it */
    WEAVEMITTEN_ABORT = 41,       /* the session is to be forcibly aborted */
    WEAVEMITTEN_FORMERR = 42,     /* the reply is FORMERR */
    WEAVEMITTEN_DSOTYPENI = 43,   /* the reply is DSOTYPENI */
    WEAVEMITTEN_KEEPALIVE = 44,   /* a Keepalive request */
    WEAVEMITTEN_SUBSCRIBE = 45,   /* a SUBSCRIBE request */
    WEAVEMITTEN_UNSUBSCRIBE = 46, /* an UNSUBSCRIBE message */
    WEAVEMITTEN_RECONFIRM = 47    /* a RECONFIRM message */
};

/* The answers to a question about names. Only WEAVEMITTEN_YES means yes. */
enum weavemitten_answer {
    WEAVEMITTEN_YES = 1,
    WEAVEMITTEN_NO = 2,
    WEAVEMITTEN_NO_NAME = 3 /* one of the two is no name */
};

/*
 * What kind of message the bytes are: one whole DNS message, without its two-byte length prefix. Tests that need the
 * session, such as an ID in use or a name outside the zone, are not made. An answer of enum weavemitten_kind.
 */
uint32_t weavemitten_message_kind(const uint8_t *message, size_t message_length);

/*
 * Whether two names are the same name: uncompressed labels of 1 to 63 bytes, a zero byte at the end, at most 255 bytes in
 * all, and no byte after it. Letters of US-ASCII compare without case. An answer of enum weavemitten_answer.
 */
uint32_t weavemitten_same_name(const uint8_t *a, size_t a_length, const uint8_t *b, size_t b_length);

/*
 * Whether a subscription to a name, type and class matches a record of a name, type and class: the names are the same; the
 * class is equal or asked as 255; the type is equal, asked as 255, or the record is a CNAME (5). An asterisk is a plain
 * label. An answer of enum weavemitten_answer.
 */
uint32_t weavemitten_match(const uint8_t *asked_name, size_t asked_name_length, uint16_t asked_type,
                           uint16_t asked_class, const uint8_t *name, size_t name_length, uint16_t type,
                           uint16_t record_class);

/*
 * The service: one zone, four sessions. The host starts a server once, and then calls open, close, message, batch and tick in
 * any order, with the time in milliseconds on a clock of its own that never goes back. The calls work on any lent memory, of
 * any content, and write nowhere else; what they answer makes sense on a server that has been started and that nobody else
 * has written since. Calls on one server must not run at the same time.
 *
 * One session cannot disturb another: whatever the others send, more or less of it, a session gets until it ends the same
 * answers to its own messages and close, the same bytes in its part of the output and the same end. That holds between two
 * runs from starts with the same name, with the same opens, closes, batches, ticks and messages of its own in the same
 * order, at the same times and with outputs of the same lengths, in which the same open gave it the same number. It says
 * nothing of the time that calls take, and others may hold all four sessions.
 */
enum { WEAVEMITTEN_SESSIONS = 4, WEAVEMITTEN_NUMBERS = 28, WEAVEMITTEN_VALUES = 8 };

#define WEAVEMITTEN_OUTPUT 16384       /* bytes of a session's part of the output */
#define WEAVEMITTEN_OUTPUTS 65536      /* bytes of the whole output, at least: session s has those from s * 16384 on */
#define WEAVEMITTEN_ZONE 255           /* bytes of the longest name */
#define WEAVEMITTEN_RECORDS 15720      /* bytes of one of the two areas for records */
#define WEAVEMITTEN_SUBSCRIPTIONS 4192 /* bytes of a session's area for subscriptions */

/* A server, in memory that the host lends with each call. The host looks at none of it. */
struct weavemitten_server {
    uint64_t numbers[WEAVEMITTEN_NUMBERS];
    uint8_t zone[WEAVEMITTEN_ZONE];
    uint8_t first[WEAVEMITTEN_RECORDS];
    uint8_t second[WEAVEMITTEN_RECORDS];
    uint8_t subscriptions[WEAVEMITTEN_SESSIONS][WEAVEMITTEN_SUBSCRIPTIONS];
};

/* The answers of the calls. Those from WEAVEMITTEN_ANSWER_NO_SESSION on are refusals: nothing has changed. */
enum weavemitten_call_answer {
    WEAVEMITTEN_ANSWER_DONE = 1,              /* done, nothing to send */
    WEAVEMITTEN_ANSWER_SENT = 2,              /* done, with bytes to send: the counts are in values */
    WEAVEMITTEN_ANSWER_NOT_OURS = 3,          /* the opcode is not 6: another part of the host handles the message */
    WEAVEMITTEN_ANSWER_ABORTED = 4,           /* the session was forcibly aborted: it is free, and nothing is to be sent */
    WEAVEMITTEN_ANSWER_RECONFIRM = 5,         /* a RECONFIRM: the places of its four parts are in values */
    WEAVEMITTEN_ANSWER_NO_SESSION = 10,       /* the session's number is above 3, or no session is open there */
    WEAVEMITTEN_ANSWER_TIME_BACKWARDS = 11,   /* the time is below the latest accepted time */
    WEAVEMITTEN_ANSWER_OUTPUT_TOO_SHORT = 12, /* the output has less than WEAVEMITTEN_OUTPUTS bytes */
    WEAVEMITTEN_ANSWER_ALL_OPEN = 13,         /* all four sessions are open */
    WEAVEMITTEN_ANSWER_UNREADABLE = 14,       /* the batch does not parse */
    WEAVEMITTEN_ANSWER_BAD_VALUE = 15,        /* an edit has a value that is not allowed */
    WEAVEMITTEN_ANSWER_TOO_MANY_EDITS = 16,   /* a 33rd edit begins */
    WEAVEMITTEN_ANSWER_STORE_FULL = 17,       /* a record would be the 41st */
    WEAVEMITTEN_ANSWER_MESSAGE_TOO_LONG = 18, /* more than 65,535 bytes */
    WEAVEMITTEN_ANSWER_NOT_A_NAME = 20        /* the zone's name is no name */
};

#ifdef __cplusplus
#define WEAVEMITTEN_ASSERT(holds, text) static_assert(holds, text)
#else
#define WEAVEMITTEN_ASSERT(holds, text) _Static_assert(holds, text)
#endif
WEAVEMITTEN_ASSERT(sizeof(size_t) == 8, "a count of bytes has 64 bits");
WEAVEMITTEN_ASSERT(sizeof(((struct weavemitten_server *)0)->numbers) == 28 * 8, "the server's numbers");
WEAVEMITTEN_ASSERT(sizeof(((struct weavemitten_server *)0)->zone) == 255, "the zone's name");
WEAVEMITTEN_ASSERT(sizeof(((struct weavemitten_server *)0)->first) == 40 * 393, "the first area for records");
WEAVEMITTEN_ASSERT(sizeof(((struct weavemitten_server *)0)->second) == 40 * 393, "the second area for records");
WEAVEMITTEN_ASSERT(sizeof(((struct weavemitten_server *)0)->subscriptions) == 4 * 16 * 262, "the areas for subscriptions");
WEAVEMITTEN_ASSERT(WEAVEMITTEN_OUTPUTS == WEAVEMITTEN_SESSIONS * WEAVEMITTEN_OUTPUT, "a part of the output for each session");
#undef WEAVEMITTEN_ASSERT

/* The library's own functions, which take a server's parts. Use those below. */
uint32_t weavemitten_server_start(uint64_t *numbers, uint8_t *octets, const uint8_t *zone, size_t zone_length);
uint32_t weavemitten_server_open(uint64_t *numbers, uint64_t time, uint64_t *values);
uint32_t weavemitten_server_close(uint64_t *numbers, uint64_t time, uint64_t session);
uint32_t weavemitten_server_message(uint64_t *numbers, const uint8_t *zone, const uint8_t *first, const uint8_t *second,
                                    uint8_t *s0, uint8_t *s1, uint8_t *s2, uint8_t *s3, uint64_t time, uint64_t session,
                                    const uint8_t *message, size_t message_length, uint8_t *output, size_t output_length,
                                    uint64_t *values);
uint32_t weavemitten_server_batch(uint64_t *numbers, const uint8_t *zone, uint8_t *first, uint8_t *second,
                                  const uint8_t *s0, const uint8_t *s1, const uint8_t *s2, const uint8_t *s3,
                                  uint64_t time, const uint8_t *batch, size_t batch_length, uint8_t *output,
                                  size_t output_length, uint64_t *values);
uint32_t weavemitten_server_tick(uint64_t *numbers, uint64_t time, uint64_t *values);

/*
 * Starts a server for a zone of this name, uncompressed: no session, no record, the latest time 0. What the lent memory held
 * before doesn't matter. Answers 1, or 20 with the memory as it was.
 */
static inline uint32_t weavemitten_start(struct weavemitten_server *server, const uint8_t *zone, size_t zone_length)
{
    return weavemitten_server_start(server->numbers, server->zone, zone, zone_length);
}

/*
 * The calls below that have values fill all eight of them, whatever they answer. After open answered 1, values[0] is the
 * session. After 2, values[s] is how many bytes stand at the start of session s's part of the output (0: none); on a server
 * that nobody else has written they are at most WEAVEMITTEN_OUTPUT. After tick answered 1, values[s] is 1 where session s was
 * aborted. After 5, values has start and length of the name, of the type, of the class and of the RDATA in the message. All
 * others are 0.
 */

/* Opens a session at the lowest free number. Answers 1, 11 or 13. */
static inline uint32_t weavemitten_open(struct weavemitten_server *server, uint64_t time,
                                        uint64_t values[WEAVEMITTEN_VALUES])
{
    return weavemitten_server_open(server->numbers, time, values);
}

/* Closes a session; its number is free again. Answers 1, 10 or 11. */
static inline uint32_t weavemitten_close(struct weavemitten_server *server, uint64_t time, uint64_t session)
{
    return weavemitten_server_close(server->numbers, time, session);
}

/*
 * A session received one whole DNS message, without its two-byte length prefix. What is written for the session, a reply and
 * perhaps a PUSH, carries the prefixes. Answers 1 to 5, 10, 11, 12 or 18.
 */
static inline uint32_t weavemitten_message(struct weavemitten_server *server, uint64_t time, uint64_t session,
                                           const uint8_t *message, size_t message_length, uint8_t *output,
                                           size_t output_length, uint64_t values[WEAVEMITTEN_VALUES])
{
    return weavemitten_server_message(server->numbers, server->zone, server->first, server->second,
                                      server->subscriptions[0], server->subscriptions[1], server->subscriptions[2],
                                      server->subscriptions[3], time, session, message, message_length, output,
                                      output_length, values);
}

/*
 * Edits of the zone's records, end to end: name, type, class, TTL (32 bits), RDATA's length (16 bits), RDATA. A TTL up to
 * 0x7FFFFFFF puts the record, 0xFFFFFFFF deletes it. Each session whose view changes is written one PUSH. Answers 1, 2, 11,
 * 12 or 14 to 17.
 */
static inline uint32_t weavemitten_batch(struct weavemitten_server *server, uint64_t time, const uint8_t *batch,
                                         size_t batch_length, uint8_t *output, size_t output_length,
                                         uint64_t values[WEAVEMITTEN_VALUES])
{
    return weavemitten_server_batch(server->numbers, server->zone, server->first, server->second,
                                    server->subscriptions[0], server->subscriptions[1], server->subscriptions[2],
                                    server->subscriptions[3], time, batch, batch_length, output, output_length, values);
}

/* Aborts each session whose keepalive or inactivity time is over. Answers 1 or 11. */
static inline uint32_t weavemitten_tick(struct weavemitten_server *server, uint64_t time,
                                        uint64_t values[WEAVEMITTEN_VALUES])
{
    return weavemitten_server_tick(server->numbers, time, values);
}

#ifdef __cplusplus
}
#endif

#endif
