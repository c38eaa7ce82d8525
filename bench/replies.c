/* A service in plain C that answers `get`, for bench/service.py and bench/replies.py: replies CONNECTIONS. It listens on 127.0.0.1,
   says on which port, and answers the lines of so many clients, each on a thread of its own. As the agent does, it writes the replies to
   one piece of its input together. It reads the grammar of docs/PROTOCOL.md: it finds the command among all, and numbers are decimal or
   hex. Other commands than `get` are answered `unserved`. There is an object of 64 bytes for each client; threads share them, so a reply
   takes the object's turn. */
#include "flat_shared.h"
#include <arpa/inet.h>
#include <netinet/tcp.h>
#include <pthread.h>
#include <stdio.h>
#include <stdlib.h>
#include <string.h>
#include <sys/socket.h>
#include <unistd.h>

#define CONNECTIONS 8
#define OBJECT_LENGTH 64
#define LINE_LIMIT 70000
#define RANGE_LIMIT 4096
#define PIECE 4096
#define REPLY_LIMIT (2 * RANGE_LIMIT + 16)
/* Room for the replies to a piece of short lines, or for one long reply. */
#define REPLIES 16384

static struct flat_object table[FLAT_TABLE];

/* A client, with what it has open, the line that came in part, and the replies that aren't written yet. */
struct connection {
    pthread_t thread;
    int stream;
    struct flat_machine actor;
    char line[LINE_LIMIT + PIECE], replies[REPLIES];
    size_t waiting;
};

static const char *const COMMANDS[] = {
    "make", "free", "put", "get", "ship", "ship2", "leave", "left", "return", "returned", "step", "one", "regs", "out", "stack", "line",
    "break", "unbreak", "watch", "unwatch", "resume",
};
#define COMMAND_COUNT (sizeof COMMANDS / sizeof *COMMANDS)
#define GET 3

/* Which command this is; COMMAND_COUNT if it is none. */
static size_t command(const char *name, size_t length)
{
    size_t k = 0;
    while (k < COMMAND_COUNT && (strlen(COMMANDS[k]) != length || memcmp(COMMANDS[k], name, length) != 0)) k++;
    return k;
}

/* The value of a digit; 16 where it is none. */
static unsigned digit(char c)
{
    if (c >= '0' && c <= '9') return (unsigned)(c - '0');
    c |= 0x20;
    return c >= 'a' && c <= 'f' ? (unsigned)(c - 'a' + 10) : 16;
}

/* The next number, with a blank before it, which has to be within these limits; `at` is put past it. Says whether there is one. */
static int number(const char **at, const char *end, uint64_t least, uint64_t most, uint64_t *found)
{
    const char *p = *at;
    if (p == end || *p++ != ' ') return 0;
    unsigned base = 10, next;
    if (end - p > 1 && p[0] == '0' && p[1] == 'x') {
        base = 16;
        p += 2;
    } else if (end - p > 1 && p[0] == '0' && p[1] != ' ')
        return 0;
    const char *first = p;
    uint64_t value = 0;
    for (; p < end && *p != ' '; p++) {
        if ((next = digit(*p)) >= base || __builtin_mul_overflow(value, base, &value) || __builtin_add_overflow(value, next, &value)) return 0;
    }
    if (p == first || p - first > 20 || value < least || value > most) return 0;
    *at = p;
    *found = value;
    return 1;
}

static size_t put(char *reply, const char *text)
{
    size_t length = strlen(text);
    memcpy(reply, text, length);
    return length;
}

/* `bytes`, and so many bytes in hex. */
static size_t put_bytes(char *reply, const uint8_t *bytes, size_t length)
{
    static const char DIGITS[] = "0123456789abcdef";
    char *at = reply + put(reply, "bytes ");
    for (size_t k = 0; k < length; k++) {
        *at++ = DIGITS[bytes[k] >> 4];
        *at++ = DIGITS[bytes[k] & 15];
    }
    *at++ = '\n';
    return (size_t)(at - reply);
}

static void close_scopes(struct flat_machine *actor)
{
    for (int k = 0; k < 4 && actor->seat.window[k]; k++) {
        atomic_fetch_sub(&table[actor->seat.window[k]].word, SCOPE);
        actor->seat.window[k] = 0;
    }
}

/* Puts the reply to a line there, and says how long it is. */
static size_t answer(struct connection *c, char *reply, const char *line, const char *end)
{
    uint64_t object, offset, length;
    const char *at = memchr(line, ' ', (size_t)(end - line));
    if (!at) at = end;
    size_t which = command(line, (size_t)(at - line));
    if (which != GET) return put(reply, which == COMMAND_COUNT ? "bad\n" : "unserved\n");
    if (!number(&at, end, 1, FLAT_TABLE - 1, &object) || !number(&at, end, 0, 65535, &offset)
        || !number(&at, end, 1, RANGE_LIMIT, &length) || at != end)
        return put(reply, "bad\n");
    struct reached found = reach(&c->actor, object << 32 | offset, length);
    size_t told;
    if (found.bytes) {
        told = put_bytes(reply, found.bytes, length);
        leave(found);
    } else
        told = put(reply, found.stop == FLAT_OUTSIDE ? "outside\n" : found.stop == FLAT_AWAY ? "away\n" : "busy\n");
    close_scopes(&c->actor);
    return told;
}

/* Writes the replies that aren't written yet. Says whether all of them went. */
static int written(struct connection *c)
{
    size_t length = c->waiting;
    c->waiting = 0;
    return length == 0 || write(c->stream, c->replies, length) == (ssize_t)length;
}

/* Answers the lines that came, until the client ends. */
static void *converse(void *of)
{
    struct connection *c = of;
    size_t held = 0;
    ssize_t got;
    while (held < LINE_LIMIT && (got = read(c->stream, c->line + held, PIECE)) > 0) {
        char *line = c->line, *end = c->line + held + got, *newline;
        for (; (newline = memchr(line, '\n', (size_t)(end - line))); line = newline + 1) {
            if (REPLIES - c->waiting < REPLY_LIMIT && !written(c)) return NULL;
            c->waiting += answer(c, c->replies + c->waiting, line, newline);
        }
        if (!written(c)) return NULL;
        held = (size_t)(end - line);
        memmove(c->line, line, held);
    }
    return NULL;
}

/* Serves so many clients, from their coming to their end. */
static int serve(int listener, unsigned count)
{
    static struct connection all[CONNECTIONS];
    int one = 1;
    for (unsigned k = 0; k < count; k++) {
        all[k].stream = accept(listener, NULL, NULL);
        all[k].actor.table = table;
        if (all[k].stream < 0 || setsockopt(all[k].stream, IPPROTO_TCP, TCP_NODELAY, &one, sizeof one)) return 3;
        if (pthread_create(&all[k].thread, NULL, converse, &all[k])) return 3;
    }
    for (unsigned k = 0; k < count; k++) {
        pthread_join(all[k].thread, NULL);
        close(all[k].stream);
    }
    return 0;
}

int main(int words, char **given)
{
    static uint8_t bytes[CONNECTIONS][OBJECT_LENGTH];
    unsigned count = words == 2 ? (unsigned)atoi(given[1]) : 0;
    if (count == 0 || count > CONNECTIONS) return 2;
    for (unsigned k = 0; k < count; k++) {
        table[k + 1].bytes = bytes[k];
        table[k + 1].length = OBJECT_LENGTH;
    }
    struct sockaddr_in address = {.sin_family = AF_INET, .sin_addr.s_addr = htonl(INADDR_LOOPBACK)};
    socklen_t size = sizeof address;
    int listener = socket(AF_INET, SOCK_STREAM, 0);
    if (bind(listener, (struct sockaddr *)&address, size) || listen(listener, CONNECTIONS) || getsockname(listener, (struct sockaddr *)&address, &size))
        return 3;
    printf("listening %d\n", ntohs(address.sin_port));
    fflush(stdout);
    return serve(listener, count);
}
