/* A conversation with a program that answers requests, over a socket. To copy from: it needs the C library alone.

   A service that goes, a machine that stopped, and an answer that doesn't come in time end the process with a line. */
#define _XOPEN_SOURCE 700
#include "bpfagent_request.h"
#include <arpa/inet.h>
#include <errno.h>
#include <inttypes.h>
#include <netinet/tcp.h>
#include <stdarg.h>
#include <stdbool.h>
#include <stdio.h>
#include <stdlib.h>
#include <string.h>
#include <sys/time.h>
#include <sys/un.h>
#include <time.h>
#include <unistd.h>

#define SECONDS 60 /* how long a reply, and an answer, may take */
#define LINE 512   /* more than the longest reply has to the commands of this client */

struct client {
    int socket;
    unsigned long machine, object, packets;
    struct request request;
    char received[4 * LINE];
    size_t begin, end; /* of what was received and isn't read */
};

static _Noreturn void fail(const char *format, ...)
{
    va_list arguments;
    va_start(arguments, format);
    vfprintf(stderr, format, arguments);
    fputc('\n', stderr);
    exit(1);
}

static double now(void)
{
    struct timespec t;
    clock_gettime(CLOCK_MONOTONIC, &t);
    return (double)t.tv_sec + (double)t.tv_nsec * 1e-9;
}

/* Rests between two reads of what isn't there yet, each time longer, until the time is up. */
static void rest(double *pause, double end)
{
    if (now() > end)
        fail("no answer within %d seconds", SECONDS);
    struct timespec t = { 0, (long)(*pause * 1e9) };
    nanosleep(&t, NULL);
    *pause = *pause < 40e-3 ? *pause * 1.3 : 50e-3;
}

static int dial_file(const char *path)
{
    struct sockaddr_un file = { .sun_family = AF_UNIX };
    int made = socket(AF_UNIX, SOCK_STREAM, 0);
    if (strlen(path) >= sizeof file.sun_path)
        fail("the path %s is too long", path);
    strcpy(file.sun_path, path);
    return made < 0 || connect(made, (struct sockaddr *)&file, sizeof file) ? -1 : made;
}

static int dial_port(const char *number)
{
    struct sockaddr_in place = { .sin_family = AF_INET, .sin_addr = { htonl(INADDR_LOOPBACK) } };
    int at_once = 1, made = socket(AF_INET, SOCK_STREAM, 0);
    place.sin_port = htons((uint16_t)strtoul(number, NULL, 10));
    return made < 0 || setsockopt(made, IPPROTO_TCP, TCP_NODELAY, &at_once, sizeof at_once) ||
           connect(made, (struct sockaddr *)&place, sizeof place) ? -1 : made;
}

/* Connects to the socket file of unix:PATH, or to a port of this machine. */
static void dial(struct client *c, const char *place)
{
    struct timeval limit = { SECONDS, 0 };
    c->socket = strncmp(place, "unix:", 5) ? dial_port(place) : dial_file(place + 5);
    if (c->socket < 0 || setsockopt(c->socket, SOL_SOCKET, SO_RCVTIMEO, &limit, sizeof limit))
        fail("the service at %s can't be reached: %s", place, strerror(errno));
}

static void send_all(struct client *c, const char *text)
{
    for (size_t sent = 0, length = strlen(text); sent < length;) {
        ssize_t count = send(c->socket, text + sent, length - sent, MSG_NOSIGNAL);
        if (count < 0)
            fail("the service has gone: %s", strerror(errno));
        sent += (size_t)count;
    }
    c->packets++;
}

/* The next reply, without its line end. It stays until the next call. */
static char *reply(struct client *c)
{
    char *line = c->received + c->begin, *end;
    while (!(end = memchr(line, '\n', c->end - c->begin))) {
        memmove(c->received, line, c->end -= c->begin);
        c->begin = 0;
        line = c->received;
        ssize_t count = recv(c->socket, line + c->end, sizeof c->received - c->end, 0);
        if (count <= 0)
            fail("the service has gone: %s", count ? strerror(errno) : "it ended the conversation");
        c->end += (size_t)count;
    }
    *end = 0;
    c->begin = (size_t)(end - c->received) + 1;
    return line;
}

/* Whether a command was done; false if it is to be sent again, since the object is away, busy, or the machine not paused yet. */
static bool is_done(const char *line, const char *done)
{
    bool is = !strncmp(line, done, strlen(done));
    if (!is && strncmp(line, "away ", 5) && strncmp(line, "busy ", 5) && strcmp(line, "notpaused"))
        fail("a command was answered %s", line);
    return is;
}

/* The bytes that a reply to `get` shows, if there are any. */
static bool is_got(const char *line, void *bytes, size_t length)
{
    bool got = is_done(line, "bytes ");
    for (size_t k = 0; got && k < length; k++)
        if (sscanf(line + 6 + 2 * k, "%2hhx", (unsigned char *)bytes + k) != 1)
            fail("a read was answered %s", line);
    return got;
}

/* Whether a machine is paused. One that has stopped ends the client. */
static bool is_paused(const struct client *c, const char *line)
{
    char state[16];
    unsigned slot;
    if (sscanf(line, "regs %*u %u %*s %15s", &slot, state) != 2)
        fail("machine %lu is answered %s", c->machine, line);
    if (strcmp(state, "run") && strcmp(state, "paused"))
        fail("machine %lu has stopped at slot %u: %s", c->machine, slot, state);
    return !strcmp(state, "paused");
}

/* Waits until the machine awaits a request, and reads which number it was given last. */
static void begin(struct client *c)
{
    char text[LINE];
    double end = now() + SECONDS, pause = 20e-6;
    snprintf(text, sizeof text, "regs %lu\nget %lu 0 %zu\n", c->machine, c->object, sizeof c->request);
    for (send_all(c, text);; send_all(c, text)) {
        bool paused = is_paused(c, reply(c)), got = is_got(reply(c), &c->request, sizeof c->request);
        if (paused && got)
            break;
        rest(&pause, end);
    }
    if (c->request.answered > c->request.number)
        c->request.number = c->request.answered;
}

/* Sends a request, and waits for its answer. What is refused is sent again: the program knows a new request by its number. */
static void ask(struct client *c)
{
    struct request *r = &c->request;
    char put[LINE] = "", text[3 * LINE], state[LINE];
    bool is_put = false, is_resumed = false;
    double end = now() + SECONDS, pause = 20e-6;
    r->number++;
    for (size_t k = 0; k < REQUEST_BYTES; k++)
        sprintf(put + 2 * k, "%02x", ((const unsigned char *)r)[k]);
    for (int tried = 0;; tried++) {
        bool puts = !is_put, resumes = !is_resumed;
        int length = puts ? snprintf(text, sizeof text, "put %lu 0 %s\n", c->object, put) : 0;
        length += resumes ? snprintf(text + length, LINE, "resume %lu\n", c->machine) : 0;
        length += tried ? snprintf(text + length, LINE, "regs %lu\n", c->machine) : 0;
        snprintf(text + length, LINE, "get %lu %d %d\n", c->object, REQUEST_BYTES, ANSWER_BYTES);
        send_all(c, text);
        if (puts)
            is_put = is_done(reply(c), "ok");
        if (resumes)
            is_resumed = is_done(reply(c), "ok") && is_put;
        if (tried)
            snprintf(state, sizeof state, "%s", reply(c));
        if (is_got(reply(c), &r->answered, ANSWER_BYTES) && r->answered == r->number)
            return;
        if (tried) {
            is_paused(c, state);
            rest(&pause, end);
        }
    }
}
