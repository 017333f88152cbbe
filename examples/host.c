/*
 * A small host of libweavemitten.a: it takes connections on loopback, hands each message to the library, sends what the
 * library wrote, ticks its clocks, and edits the zone as the lines of a file or of standard input say.
 */
#include <arpa/inet.h>
#include <errno.h>
#include <fcntl.h>
#include <poll.h>
#include <signal.h>
#include <stdio.h>
#include <stdlib.h>
#include <string.h>
#include <sys/socket.h>
#include <time.h>
#include <unistd.h>

#include "edit_line.h"
#include "weavemitten.h"

enum {
    TICK = 250,          /* milliseconds between ticks */
    LINE_ROOM = 1024,    /* the longest line of edits */
    BATCH_ROOM = 1 << 16,
    SEND_ROOM = 1 << 18, /* what a client may leave unread before it is cut off */
    MESSAGE_ROOM = 2 + 65535
};

/* The connection of a session: what has come in of the next message, and what is still to be sent. */
struct connection {
    int fd; /* -1: none */
    size_t received, unsent;
    uint8_t in[MESSAGE_ROOM], out[SEND_ROOM];
};

static struct weavemitten_server server;
static uint8_t output[WEAVEMITTEN_OUTPUTS];
static uint64_t values[WEAVEMITTEN_VALUES];
static struct connection connections[WEAVEMITTEN_SESSIONS];
static volatile sig_atomic_t stopping;

static void stop(int signal) {
    (void)signal;
    stopping = 1;
}

/* Milliseconds, from the host's start on. */
static uint64_t now(void) {
    static uint64_t start;
    struct timespec t;
    clock_gettime(CLOCK_MONOTONIC, &t);
    uint64_t at = (uint64_t)t.tv_sec * 1000 + (uint64_t)t.tv_nsec / 1000000;
    if (start == 0) start = at;
    return at - start;
}

/* ---- connections */

/* The library has freed the session. A reset tells the client so (RFC 8490, 5.3). */
static void reset(size_t s, const char *why) {
    struct linger at_once = {1, 0};
    printf("session %zu: %s\n", s, why);
    setsockopt(connections[s].fd, SOL_SOCKET, SO_LINGER, &at_once, sizeof at_once);
    close(connections[s].fd);
    connections[s].fd = -1;
}

/* The connection is gone, or can't be used any more, and the library is told. */
static void leave(size_t s, const char *why) {
    if (weavemitten_close(&server, now(), s) != WEAVEMITTEN_ANSWER_DONE)
        fprintf(stderr, "host: session %zu was not open\n", s);
    reset(s, why);
}

static void flush(size_t s) {
    struct connection *c = &connections[s];
    ssize_t n = send(c->fd, c->out, c->unsent, MSG_DONTWAIT | MSG_NOSIGNAL);
    if (n < 0 && (errno == EAGAIN || errno == EWOULDBLOCK || errno == EINTR)) return;
    if (n < 0) {
        leave(s, "can't be written to");
        return;
    }
    c->unsent -= (size_t)n;
    memmove(c->out, c->out + n, c->unsent);
}

/* Sends to each session the bytes that an answer 2 counted. */
static void send_output(void) {
    for (size_t s = 0; s < WEAVEMITTEN_SESSIONS; s++) {
        struct connection *c = &connections[s];
        size_t count = (size_t)values[s];
        if (count == 0 || c->fd < 0) continue;
        if (count > SEND_ROOM - c->unsent) {
            leave(s, "does not take its bytes");
            continue;
        }
        memcpy(c->out + c->unsent, output + s * WEAVEMITTEN_OUTPUT, count);
        c->unsent += count;
        flush(s);
    }
}

static void take_message(size_t s, const uint8_t *message, size_t length) {
    uint32_t answer = weavemitten_message(&server, now(), s, message, length, output, sizeof output, values);
    switch (answer) {
    case WEAVEMITTEN_ANSWER_DONE: break;
    case WEAVEMITTEN_ANSWER_SENT: send_output(); break;
    case WEAVEMITTEN_ANSWER_NOT_OURS: printf("session %zu: a message that is not DSO's, left alone\n", s); break;
    case WEAVEMITTEN_ANSWER_ABORTED: reset(s, "aborted"); break;
    case WEAVEMITTEN_ANSWER_RECONFIRM:
        printf("session %zu: asks to reconfirm the record at byte %u of its message\n", s, (unsigned)values[0]);
        break;
    default: fprintf(stderr, "host: message refused with %u\n", (unsigned)answer); leave(s, "left");
    }
}

/* Hands on each whole message that has come in behind its length prefix. */
static void take_messages(size_t s) {
    struct connection *c = &connections[s];
    size_t at = 0;
    while (c->fd >= 0 && c->received - at >= 2) {
        size_t length = (size_t)c->in[at] * 256 + c->in[at + 1];
        if (c->received - at - 2 < length) break;
        take_message(s, c->in + at + 2, length);
        at += 2 + length;
    }
    c->received -= at;
    memmove(c->in, c->in + at, c->received);
}

static void receive(size_t s) {
    struct connection *c = &connections[s];
    ssize_t n = recv(c->fd, c->in + c->received, sizeof c->in - c->received, MSG_DONTWAIT);
    if (n < 0 && (errno == EAGAIN || errno == EWOULDBLOCK || errno == EINTR)) return;
    if (n <= 0) {
        leave(s, "closed by its client");
        return;
    }
    c->received += (size_t)n;
    take_messages(s);
}

static void take_connection(int listener) {
    int fd = accept(listener, NULL, NULL);
    if (fd < 0) return;
    uint32_t answer = weavemitten_open(&server, now(), values);
    if (answer != WEAVEMITTEN_ANSWER_DONE) {
        printf("a connection is refused with %u\n", (unsigned)answer);
        close(fd);
        return;
    }
    struct connection *c = &connections[values[0]];
    c->fd = fd;
    c->received = c->unsent = 0;
    printf("session %llu: open\n", (unsigned long long)values[0]);
}

static void tick(void) {
    if (weavemitten_tick(&server, now(), values) != WEAVEMITTEN_ANSWER_DONE) return;
    for (size_t s = 0; s < WEAVEMITTEN_SESSIONS; s++)
        if (values[s] == 1 && connections[s].fd >= 0) reset(s, "timed out");
}

/* ---- edits */

static struct {
    int fd; /* -1: no more edits */
    unsigned long line;
    int overlong; /* the rest of a line that is too long is passed over */
    size_t gathered, length, edits;
    char text[LINE_ROOM];
    uint8_t batch[BATCH_ROOM];
} editor;

static void send_batch(void) {
    if (editor.edits == 0) return;
    uint32_t answer = weavemitten_batch(&server, now(), editor.batch, editor.length, output, sizeof output, values);
    const char *how = answer <= WEAVEMITTEN_ANSWER_SENT ? "done" : "refused";
    printf("a batch of %zu: %s (%u)\n", editor.edits, how, (unsigned)answer);
    if (answer == WEAVEMITTEN_ANSWER_SENT) send_output();
    editor.edits = editor.length = 0;
}

/* An empty line ends a batch; a line that begins with # is a comment. */
static void take_line(char *line) {
    const char *why;
    uint8_t edit[EDIT_ROOM];
    editor.line++;
    if (*line == '#') return;
    if (*line == '\0') {
        send_batch();
        return;
    }
    size_t length = edit_of_line(line, edit, &why);
    if (length == 0 || length > BATCH_ROOM - editor.length) {
        fprintf(stderr, "host: line %lu is no edit: %s\n", editor.line, length == 0 ? why : "the batch is too long");
        return;
    }
    memcpy(editor.batch + editor.length, edit, length);
    editor.length += length;
    editor.edits++;
}

/* The lines in what was gathered. Of a line that is too long nothing is taken. */
static void take_lines(void) {
    char *end;
    while ((end = memchr(editor.text, '\n', editor.gathered)) != NULL) {
        size_t used = (size_t)(end - editor.text) + 1;
        *end = '\0';
        if (!editor.overlong) take_line(editor.text);
        editor.overlong = 0;
        editor.gathered -= used;
        memmove(editor.text, editor.text + used, editor.gathered);
    }
    if (editor.gathered < LINE_ROOM) return;
    if (!editor.overlong) fprintf(stderr, "host: line %lu is too long\n", ++editor.line);
    editor.overlong = 1;
    editor.gathered = 0;
}

static void take_edits(void) {
    ssize_t n = read(editor.fd, editor.text + editor.gathered, LINE_ROOM - editor.gathered);
    if (n < 0 && errno == EINTR) return;
    if (n > 0) {
        editor.gathered += (size_t)n;
        take_lines();
        return;
    }
    if (editor.gathered > 0 && !editor.overlong) {
        editor.text[editor.gathered] = '\0';
        take_line(editor.text);
    }
    send_batch();
    editor.fd = -1;
}

/* ---- the host */

static int fail(const char *what) {
    fprintf(stderr, "host: %s: %s\n", what, strerror(errno));
    return 1;
}

static int listen_on(unsigned long port) {
    struct sockaddr_in address = {.sin_family = AF_INET, .sin_port = htons((uint16_t)port)};
    socklen_t length = sizeof address;
    int yes = 1, fd = socket(AF_INET, SOCK_STREAM, 0);
    if (fd < 0) return -1;
    address.sin_addr.s_addr = htonl(INADDR_LOOPBACK);
    setsockopt(fd, SOL_SOCKET, SO_REUSEADDR, &yes, sizeof yes);
    if (bind(fd, (struct sockaddr *)&address, sizeof address) != 0 || listen(fd, 8) != 0) return -1;
    if (getsockname(fd, (struct sockaddr *)&address, &length) != 0) return -1;
    printf("listening on 127.0.0.1 port %u\n", (unsigned)ntohs(address.sin_port));
    return fd;
}

/* What is waited for: each session's connection, then the listener, then the edits. */
enum { LISTENER = WEAVEMITTEN_SESSIONS, EDITS, WATCHED };

static void watch(struct pollfd watched[WATCHED], int listener) {
    for (size_t s = 0; s < WEAVEMITTEN_SESSIONS; s++) {
        short events = connections[s].unsent > 0 ? POLLIN | POLLOUT : POLLIN;
        watched[s] = (struct pollfd){.fd = connections[s].fd, .events = events};
    }
    watched[LISTENER] = (struct pollfd){.fd = listener, .events = POLLIN};
    watched[EDITS] = (struct pollfd){.fd = editor.fd, .events = POLLIN};
}

static void serve(int listener) {
    struct pollfd watched[WATCHED];
    while (!stopping) {
        watch(watched, listener);
        if (poll(watched, WATCHED, TICK) > 0) {
            for (size_t s = 0; s < WEAVEMITTEN_SESSIONS; s++) {
                if (watched[s].revents & POLLOUT) flush(s);
                if (connections[s].fd >= 0 && (watched[s].revents & ~POLLOUT)) receive(s);
            }
            if (watched[EDITS].revents) take_edits();
            if (watched[LISTENER].revents) take_connection(listener);
        }
        tick();
        fflush(stdout);
    }
}

int main(int count, char **words) {
    uint8_t zone[255];
    char *end = NULL;
    unsigned long port = count >= 3 ? strtoul(words[2], &end, 10) : 0;
    if (count < 3 || count > 4 || *words[2] == '\0' || *end != '\0' || port > 65535) {
        fprintf(stderr, "usage: host ZONE PORT [EDITS]\n"
                        "  ZONE   the zone's name, such as shop.example\n"
                        "  PORT   on 127.0.0.1; 0: any free one, which is printed\n"
                        "  EDITS  a file of edits; standard input where it is - or missing\n");
        return 2;
    }
    if (weavemitten_start(&server, zone, name_of_text(words[1], zone)) != WEAVEMITTEN_ANSWER_DONE) {
        fprintf(stderr, "host: the zone's name is no name: %s\n", words[1]);
        return 2;
    }
    for (size_t s = 0; s < WEAVEMITTEN_SESSIONS; s++) connections[s].fd = -1;
    editor.fd = count == 4 && strcmp(words[3], "-") != 0 ? open(words[3], O_RDONLY) : STDIN_FILENO;
    if (editor.fd < 0) return fail(words[3]);
    struct sigaction action = {.sa_handler = stop};
    sigaction(SIGINT, &action, NULL);
    sigaction(SIGTERM, &action, NULL);
    int listener = listen_on(port);
    if (listener < 0) return fail("can't listen");
    fflush(stdout);
    serve(listener);
    for (size_t s = 0; s < WEAVEMITTEN_SESSIONS; s++)
        if (connections[s].fd >= 0) leave(s, "closed by the host");
    return 0;
}
