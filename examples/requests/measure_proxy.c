/* A connection that takes its time: measure_proxy PORT MICROSECONDS

   It tells its own port, and passes on what comes to it to PORT and back. Each direction takes half of the time. Packets overtake
   nothing, and any number of them are on the way at once. */
#define _GNU_SOURCE
#include <arpa/inet.h>
#include <netinet/tcp.h>
#include <poll.h>
#include <pthread.h>
#include <stdbool.h>
#include <stdio.h>
#include <stdlib.h>
#include <sys/prctl.h>
#include <time.h>
#include <unistd.h>

#define PACKETS 256
#define BYTES 65536

struct packet {
    double due;
    size_t length;
    char bytes[BYTES];
};

struct way {
    int from, to;
    struct packet *packets; /* a ring */
    unsigned long first, next;
};

static double delay;

static _Noreturn void fail(const char *what)
{
    perror(what);
    exit(1);
}

static double now(void)
{
    struct timespec t;
    clock_gettime(CLOCK_MONOTONIC, &t);
    return (double)t.tv_sec + (double)t.tv_nsec * 1e-9;
}

/* Sends what is due; whether the other side still takes it. */
static bool send_due(struct way *w)
{
    while (w->first < w->next && w->packets[w->first % PACKETS].due <= now()) {
        struct packet *packet = &w->packets[w->first++ % PACKETS];
        for (size_t sent = 0; sent < packet->length;) {
            ssize_t count = send(w->to, packet->bytes + sent, packet->length - sent, MSG_NOSIGNAL);
            if (count <= 0)
                return false;
            sent += (size_t)count;
        }
    }
    return true;
}

/* Waits until something comes or is due. */
static bool is_readable(const struct way *w)
{
    bool has_room = w->next - w->first < PACKETS;
    struct pollfd polled = { w->from, has_room ? POLLIN : 0, 0 };
    struct timespec left = { 60, 0 };
    if (w->first < w->next) {
        double wait = w->packets[w->first % PACKETS].due - now();
        left.tv_sec = 0;
        left.tv_nsec = wait > 0 ? (long)(wait * 1e9) : 0;
    }
    return ppoll(&polled, 1, &left, NULL) > 0 && has_room;
}

static void *pass_on(void *given)
{
    struct way *w = given;
    prctl(PR_SET_TIMERSLACK, 1, 0, 0, 0);
    while (send_due(w)) {
        if (!is_readable(w))
            continue;
        struct packet *packet = &w->packets[w->next % PACKETS];
        ssize_t count = recv(w->from, packet->bytes, BYTES, 0);
        if (count <= 0)
            break;
        packet->length = (size_t)count;
        packet->due = now() + delay;
        w->next++;
    }
    while (w->first < w->next && send_due(w))
        ;
    shutdown(w->from, SHUT_RD);
    shutdown(w->to, SHUT_WR);
    free(w->packets);
    free(w);
    return NULL;
}

static void start(int from, int to)
{
    pthread_t thread;
    struct way *w = malloc(sizeof *w);
    if (!w)
        fail("memory");
    *w = (struct way){ .from = from, .to = to, .packets = malloc(PACKETS * sizeof *w->packets) };
    if (!w->packets || pthread_create(&thread, NULL, pass_on, w) || pthread_detach(thread))
        fail("thread");
}

int main(int count, char **words)
{
    struct sockaddr_in own = { .sin_family = AF_INET, .sin_addr = { htonl(INADDR_LOOPBACK) } }, place = own;
    socklen_t length = sizeof own;
    int at_once = 1, listener = socket(AF_INET, SOCK_STREAM, 0);
    if (count != 3)
        return 2;
    delay = atof(words[2]) * 1e-6 / 2;
    place.sin_port = htons((uint16_t)atoi(words[1]));
    if (bind(listener, (struct sockaddr *)&own, length) || listen(listener, 8) || getsockname(listener, (struct sockaddr *)&own, &length))
        fail("listen");
    printf("listening %d\n", ntohs(own.sin_port));
    fflush(stdout);
    for (;;) {
        int client = accept(listener, NULL, NULL), server = socket(AF_INET, SOCK_STREAM, 0);
        if (client < 0 || connect(server, (struct sockaddr *)&place, sizeof place))
            fail("connect");
        setsockopt(client, IPPROTO_TCP, TCP_NODELAY, &at_once, sizeof at_once);
        setsockopt(server, IPPROTO_TCP, TCP_NODELAY, &at_once, sizeof at_once);
        start(client, server);
        start(server, client);
    }
}
