/* A far store over TCP in plain C, as crates/bench_threads does it: far KIND COUNT LENGTH. A client and a server, each in a thread,
   speak the frames of docs/FAR-STREAM.md; the client keeps length and SHA-256 of what it put, and compares them with what comes
   home. What is kept is the frame that answers a get. KIND is put, so many puts, each of which is forgotten, get, so many gets of
   one put, or digest, so many digests without a stream. Prints how many went well, or the sum of the digests' first words. */
#include "sha256.h"
#include <netinet/in.h>
#include <netinet/tcp.h>
#include <pthread.h>
#include <stdint.h>
#include <stdio.h>
#include <stdlib.h>
#include <string.h>
#include <sys/socket.h>
#include <unistd.h>

#define HEAD 13
#define LIMIT 65536
#define KEPT 1024

enum kind { PUT = 1, GET, FORGET };
enum status { DONE, REFUSED_ID, NO_ROOM };

static uint32_t turned(uint32_t x, int by)
{
    return x >> by | x << (32 - by);
}

static void sha256_block(uint32_t state[8], const uint8_t *block)
{
    uint32_t w[64];
    for (int t = 0; t < 16; t++) w[t] = word_at(block + 4 * t);
    for (int t = 16; t < 64; t++) {
        uint32_t one = w[t - 15], two = w[t - 2];
        w[t] = w[t - 16] + (turned(one, 7) ^ turned(one, 18) ^ one >> 3) + w[t - 7] + (turned(two, 17) ^ turned(two, 19) ^ two >> 10);
    }
    uint32_t a = state[0], b = state[1], c = state[2], d = state[3], e = state[4], f = state[5], g = state[6], h = state[7];
    for (int t = 0; t < 64; t++) {
        uint32_t one = h + (turned(e, 6) ^ turned(e, 11) ^ turned(e, 25)) + ((e & f) ^ (~e & g)) + SHA256_K[t] + w[t];
        uint32_t two = (turned(a, 2) ^ turned(a, 13) ^ turned(a, 22)) + ((a & b) ^ (a & c) ^ (b & c));
        h = g;
        g = f;
        f = e;
        e = d + one;
        d = c;
        c = b;
        b = a;
        a = one + two;
    }
    state[0] += a;
    state[1] += b;
    state[2] += c;
    state[3] += d;
    state[4] += e;
    state[5] += f;
    state[6] += g;
    state[7] += h;
}

static void *room(size_t bytes)
{
    void *p = malloc(bytes);
    if (!p) exit(3);
    return p;
}

struct head {
    uint8_t kind;
    uint64_t id;
    uint32_t length;
};

static void write_head(uint8_t *to, uint8_t kind, uint64_t id, uint32_t length)
{
    to[0] = kind;
    for (int k = 0; k < 8; k++) to[1 + k] = (uint8_t)(id >> (56 - 8 * k));
    for (int k = 0; k < 4; k++) to[9 + k] = (uint8_t)(length >> (24 - 8 * k));
}

/* A function that calls `move` until all bytes have gone or come; 0 if it fails before. */
#define ALL(name, move, byte)                                  \
    static int name(int stream, byte *bytes, size_t left)      \
    {                                                          \
        while (left) {                                         \
            ssize_t n = move(stream, bytes, left);             \
            if (n <= 0) return 0;                              \
            bytes += n;                                        \
            left -= (size_t)n;                                 \
        }                                                      \
        return 1;                                              \
    }

ALL(write_all, write, const uint8_t)
ALL(read_all, read, uint8_t)

static int read_head(int stream, struct head *head)
{
    uint8_t bytes[HEAD];
    if (!read_all(stream, bytes, HEAD)) return 0;
    *head = (struct head){ bytes[0], (uint64_t)word_at(bytes + 1) << 32 | word_at(bytes + 5), word_at(bytes + 9) };
    return 1;
}

/* The server: a list of what is kept, each as the frame that answers a get. */
struct kept {
    uint64_t id;
    uint8_t *frame;
    size_t length;
};

static int answer(int stream, enum status status, uint64_t id)
{
    uint8_t bytes[HEAD];
    write_head(bytes, (uint8_t)status, id, 0);
    return write_all(stream, bytes, HEAD);
}

static size_t place_of(const struct kept *kept, size_t count, uint64_t id)
{
    size_t place = 0;
    while (place < count && kept[place].id != id) place++;
    return place;
}

static int serve_put(int stream, struct kept *kept, size_t *count, struct head head)
{
    if (head.length == 0 || head.length > LIMIT) return 0;
    struct kept one = { head.id, room(HEAD + head.length), HEAD + head.length };
    write_head(one.frame, DONE, head.id, head.length);
    if (!read_all(stream, one.frame + HEAD, head.length)) return 0;
    if (place_of(kept, *count, head.id) < *count || *count == KEPT) {
        free(one.frame);
        return answer(stream, *count == KEPT ? NO_ROOM : REFUSED_ID, head.id);
    }
    kept[(*count)++] = one;
    return answer(stream, DONE, head.id);
}

static void *serve(void *of)
{
    static struct kept kept[KEPT];
    int stream = *(int *)of;
    size_t count = 0, place;
    struct head head;
    while (read_head(stream, &head)) {
        if (head.kind == PUT) {
            if (!serve_put(stream, kept, &count, head)) break;
            continue;
        }
        place = place_of(kept, count, head.id);
        if (head.length || head.kind > FORGET) break;
        if (place == count) {
            if (!answer(stream, REFUSED_ID, head.id)) break;
        } else if (head.kind == GET) {
            if (!write_all(stream, kept[place].frame, kept[place].length)) break;
        } else {
            free(kept[place].frame);
            memmove(kept + place, kept + place + 1, (count - place - 1) * sizeof *kept);
            count--;
            if (!answer(stream, DONE, head.id)) break;
        }
    }
    close(stream);
    return NULL;
}

/* The client. */
struct parcel {
    uint64_t id;
    uint32_t length;
    uint8_t digest[32];
};

struct store {
    int stream;
    uint64_t puts;
    uint8_t frame[HEAD + LIMIT];
};

static int heard(struct store *store, uint64_t id, uint32_t most, struct head *head)
{
    return read_head(store->stream, head) && head->id == id && head->kind == DONE && head->length <= most;
}

static int put(struct store *store, const uint8_t *bytes, uint32_t length, struct parcel *parcel)
{
    struct head head;
    parcel->id = ++store->puts;
    parcel->length = length;
    write_head(store->frame, PUT, parcel->id, length);
    memcpy(store->frame + HEAD, bytes, length);
    if (!write_all(store->stream, store->frame, HEAD + length)) return 0;
    sha256(bytes, length, parcel->digest);
    return heard(store, parcel->id, 0, &head);
}

/* The bytes of the parcel, which are the caller's to free, or NULL. */
static uint8_t *get(struct store *store, const struct parcel *parcel)
{
    struct head head;
    uint8_t ask[HEAD], digest[32];
    write_head(ask, GET, parcel->id, 0);
    if (!write_all(store->stream, ask, HEAD) || !heard(store, parcel->id, LIMIT, &head) || head.length != parcel->length) return NULL;
    uint8_t *bytes = room(head.length);
    if (read_all(store->stream, bytes, head.length)) {
        sha256(bytes, head.length, digest);
        if (!memcmp(digest, parcel->digest, 32)) return bytes;
    }
    free(bytes);
    return NULL;
}

static int forget(struct store *store, const struct parcel *parcel)
{
    struct head head;
    uint8_t ask[HEAD];
    write_head(ask, FORGET, parcel->id, 0);
    return write_all(store->stream, ask, HEAD) && heard(store, parcel->id, 0, &head);
}

static uint64_t put_all(struct store *store, const uint8_t *source, uint32_t length, uint64_t count)
{
    struct parcel parcel;
    for (uint64_t done = 0; done < count; done++) {
        uint8_t *bytes = room(length);
        memcpy(bytes, source, length);
        if (!put(store, bytes, length, &parcel)) return done;
        free(bytes);
        if (!forget(store, &parcel)) return done;
    }
    return count;
}

static uint64_t get_all(struct store *store, const uint8_t *source, uint32_t length, uint64_t count)
{
    struct parcel parcel;
    if (!put(store, source, length, &parcel)) return 0;
    for (uint64_t done = 0; done < count; done++) {
        uint8_t *bytes = get(store, &parcel);
        if (!bytes) return done;
        free(bytes);
    }
    return count;
}

static uint64_t digest_all(const uint8_t *source, uint32_t length, uint64_t count)
{
    uint8_t digest[32];
    uint64_t sum = 0;
    while (count--) {
        sha256(source, length, digest);
        sum += word_at(digest);
    }
    return sum;
}

/* Both ends of a stream, neither of which waits to fill a packet. */
static int connected(int ends[2])
{
    struct sockaddr_in address = { .sin_family = AF_INET, .sin_addr.s_addr = htonl(INADDR_LOOPBACK) };
    socklen_t size = sizeof address;
    int listener = socket(AF_INET, SOCK_STREAM, 0), on = 1;
    if (bind(listener, (struct sockaddr *)&address, size) || listen(listener, 1) || getsockname(listener, (struct sockaddr *)&address, &size)) return 0;
    ends[0] = socket(AF_INET, SOCK_STREAM, 0);
    if (connect(ends[0], (struct sockaddr *)&address, size) || (ends[1] = accept(listener, NULL, NULL)) < 0) return 0;
    for (int k = 0; k < 2; k++) setsockopt(ends[k], IPPROTO_TCP, TCP_NODELAY, &on, sizeof on);
    close(listener);
    return 1;
}

int main(int argc, char **argv)
{
    static struct store store;
    uint64_t count = argc == 4 ? strtoull(argv[2], NULL, 10) : 0, done;
    uint32_t length = argc == 4 ? (uint32_t)strtoul(argv[3], NULL, 10) : 0;
    int ends[2];
    pthread_t server;
    if (!length || length > LIMIT) return 2;
    uint8_t *source = room(length);
    for (uint32_t k = 0; k < length; k++) source[k] = (uint8_t)(k % 251);
    if (!strcmp(argv[1], "digest")) {
        printf("%llu\n", (unsigned long long)digest_all(source, length, count));
        return 0;
    }
    if (!connected(ends) || pthread_create(&server, NULL, serve, &ends[1])) return 3;
    store.stream = ends[0];
    done = !strcmp(argv[1], "put") ? put_all(&store, source, length, count) : get_all(&store, source, length, count);
    close(ends[0]);
    pthread_join(server, NULL);
    printf("%llu\n", (unsigned long long)done);
    return 0;
}
