/* A network between a client and a server on this host: delay PORT MICROSECONDS. It listens on a free port of 127.0.0.1, which it prints,
   and passes each connection on to PORT. Bytes come out half of the microseconds after they came in, in each direction, however many
   are on their way. It ends when its input does. A thread of a connection spins for the last moment before bytes are due, so that a
   trip takes little more than is asked for. */
#define _GNU_SOURCE /* ppoll */
#include <arpa/inet.h>
#include <netinet/tcp.h>
#include <poll.h>
#include <pthread.h>
#include <stdint.h>
#include <stdio.h>
#include <stdlib.h>
#include <string.h>
#include <sys/socket.h>
#include <time.h>
#include <unistd.h>

#define PIECE 65536
/* For how long it spins, in nanoseconds. */
#define MOMENT 60000

static uint16_t target;
static int64_t delay;

static int64_t now(void)
{
    struct timespec t;
    clock_gettime(CLOCK_MONOTONIC, &t);
    return (int64_t)t.tv_sec * 1000000000 + t.tv_nsec;
}

static void *room(size_t bytes)
{
    void *made = malloc(bytes);
    if (!made) exit(3);
    return made;
}

/* Bytes on their way. */
struct piece {
    struct piece *next;
    int64_t due;
    size_t length;
    uint8_t bytes[];
};

/* A direction: the ends, and what is on its way, the first that is due first. */
struct way {
    int from, to;
    struct piece *first, **last;
};

/* Takes what has come; 0 at the end. */
static int take(struct way *way)
{
    static _Thread_local uint8_t came[PIECE];
    ssize_t length = read(way->from, came, sizeof came);
    if (length <= 0) return 0;
    struct piece *made = room(sizeof *made + (size_t)length);
    made->next = NULL;
    made->due = now() + delay;
    made->length = (size_t)length;
    memcpy(made->bytes, came, made->length);
    *way->last = made;
    way->last = &made->next;
    return 1;
}

/* Passes on what is due; 0 if nobody takes it. */
static int pass(struct way *way)
{
    while (way->first && way->first->due <= now()) {
        struct piece *due = way->first;
        for (size_t done = 0; done < due->length;) {
            ssize_t written = write(way->to, due->bytes + done, due->length - done);
            if (written <= 0) return 0;
            done += (size_t)written;
        }
        way->first = due->next;
        if (!way->first) way->last = &way->first;
        free(due);
    }
    return 1;
}

/* How long to sleep until something is due, in nanoseconds: none within the last moment, and -1 while nothing is on its way. */
static int64_t rest(const struct way *ways)
{
    int64_t least = -1, at = now();
    for (int k = 0; k < 2; k++) {
        if (!ways[k].first) continue;
        int64_t left = ways[k].first->due - at - MOMENT;
        if (left < 0) left = 0;
        if (least < 0 || left < least) least = left;
    }
    return least;
}

static int connected(uint16_t port)
{
    struct sockaddr_in address = { .sin_family = AF_INET, .sin_addr.s_addr = htonl(INADDR_LOOPBACK), .sin_port = htons(port) };
    int made = socket(AF_INET, SOCK_STREAM, 0);
    return connect(made, (struct sockaddr *)&address, sizeof address) ? -1 : made;
}

/* A connection, until one of its ends is closed. */
static void *serve(void *given)
{
    int ends[2] = { *(int *)given, connected(target) }, on = 1;
    struct way ways[2] = { { ends[0], ends[1], NULL, NULL }, { ends[1], ends[0], NULL, NULL } };
    struct pollfd polled[2] = { { ends[0], POLLIN, 0 }, { ends[1], POLLIN, 0 } };
    free(given);
    for (int k = 0; k < 2; k++) {
        ways[k].last = &ways[k].first;
        setsockopt(ends[k], IPPROTO_TCP, TCP_NODELAY, &on, sizeof on);
    }
    for (int goes_on = ends[1] >= 0; goes_on;) {
        int64_t left = rest(ways);
        struct timespec time = { left / 1000000000, left % 1000000000 };
        if (ppoll(polled, 2, left < 0 ? NULL : &time, NULL) < 0) break;
        for (int k = 0; k < 2; k++) {
            if (polled[k].revents && !take(&ways[k])) goes_on = 0;
            if (!pass(&ways[k])) goes_on = 0;
        }
    }
    close(ends[0]);
    close(ends[1]);
    return NULL;
}

static void *accept_all(void *given)
{
    int listener = *(int *)given;
    for (;;) {
        int *made = room(sizeof *made);
        pthread_t thread;
        if ((*made = accept(listener, NULL, NULL)) < 0 || pthread_create(&thread, NULL, serve, made)) exit(3);
        pthread_detach(thread);
    }
    return NULL;
}

int main(int argc, char **argv)
{
    struct sockaddr_in address = { .sin_family = AF_INET, .sin_addr.s_addr = htonl(INADDR_LOOPBACK) };
    socklen_t size = sizeof address;
    int listener = socket(AF_INET, SOCK_STREAM, 0);
    pthread_t accepting;
    char byte;
    if (argc != 3) return 2;
    target = (uint16_t)strtoul(argv[1], NULL, 10);
    delay = (int64_t)strtoul(argv[2], NULL, 10) * 500;
    if (bind(listener, (struct sockaddr *)&address, size) || listen(listener, 8) || getsockname(listener, (struct sockaddr *)&address, &size)) return 3;
    printf("listening %u\n", ntohs(address.sin_port));
    fflush(stdout);
    if (pthread_create(&accepting, NULL, accept_all, &listener)) return 3;
    while (read(0, &byte, 1) > 0) continue;
    return 0;
}
