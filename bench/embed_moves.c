/* What a move of the library for C takes: bpfagent_left_into and bpfagent_returned_from, beside memcpy and SHA-256 alone. The SHA-256
   is written here in plain C, with its rounds unrolled by eight as usual libraries without instructions of their own have it. Of
   interleaved runs the tenth percentile counts.

   `moves LENGTH COUNT` does so many of each of that length, and tells nothing: bench/moves.py counts machine instructions of each. */
#include "bpfagent.h"
#include "sha256.h"
#include "times.h"
#include <inttypes.h>
#include <stdio.h>
#include <stdlib.h>
#include <string.h>

#define RUNS 201
#define SIDES 4
#define LARGEST 65536

static const size_t LENGTHS[] = { 64, 4096, 65536 };
static uint8_t bytes[LARGEST], kept[LARGEST], copied[LARGEST];

/* Nanoseconds. */
static double now(void)
{
    return 1e9 * seconds_by(CLOCK_MONOTONIC);
}

static void must(uint32_t reply)
{
    if (reply == BPFAGENT_OK)
        return;
    fprintf(stderr, "moves: answered %s\n", bpfagent_name(reply));
    exit(1);
}

/* ---- the rounds of SHA-256 */

#define ROR(x, n) ((x) >> (n) | (x) << (32 - (n)))
#define ROUND(a, b, c, d, e, f, g, h, i) \
    do { \
        uint32_t t = h + (ROR(e, 6) ^ ROR(e, 11) ^ ROR(e, 25)) + (g ^ (e & (f ^ g))) + SHA256_K[i] + w[i]; \
        d += t; \
        h = t + (ROR(a, 2) ^ ROR(a, 13) ^ ROR(a, 22)) + ((a & b) | (c & (a | b))); \
    } while (0)

static void sha256_block(uint32_t s[8], const uint8_t *p)
{
    uint32_t w[64], a = s[0], b = s[1], c = s[2], d = s[3], e = s[4], f = s[5], g = s[6], h = s[7];
    for (unsigned i = 0; i < 16; i++)
        w[i] = word_at(p + 4 * i);
    for (unsigned i = 16; i < 64; i++)
        w[i] = w[i - 16] + (ROR(w[i - 15], 7) ^ ROR(w[i - 15], 18) ^ w[i - 15] >> 3) + w[i - 7] + (ROR(w[i - 2], 17) ^ ROR(w[i - 2], 19) ^ w[i - 2] >> 10);
    for (unsigned i = 0; i < 64; i += 8) {
        ROUND(a, b, c, d, e, f, g, h, i);
        ROUND(h, a, b, c, d, e, f, g, i + 1);
        ROUND(g, h, a, b, c, d, e, f, i + 2);
        ROUND(f, g, h, a, b, c, d, e, i + 3);
        ROUND(e, f, g, h, a, b, c, d, i + 4);
        ROUND(d, e, f, g, h, a, b, c, i + 5);
        ROUND(c, d, e, f, g, h, a, b, i + 6);
        ROUND(b, c, d, e, f, g, h, a, i + 7);
    }
    uint32_t by[8] = { a, b, c, d, e, f, g, h };
    for (unsigned i = 0; i < 8; i++)
        s[i] += by[i];
}

/* ---- sides */

/* So many moves out and back of one object, which is written in between so that its bytes go out each time. */
static void move(bpfagent *agent, uint32_t object, size_t count, double *out, double *back)
{
    size_t length;
    bpfagent_parcel parcel;
    *out = *back = 0;
    for (size_t k = 0; k < count; k++) {
        must(bpfagent_put(agent, object, 0, (const uint8_t *)&k, sizeof k));
        must(bpfagent_leave(agent, object));
        double a = now();
        must(bpfagent_left_into(agent, object, kept, sizeof kept, &length, &parcel));
        double b = now();
        must(bpfagent_return(agent, object));
        double c = now();
        must(bpfagent_returned_from(agent, object, kept, length));
        *back += now() - c;
        *out += b - a;
    }
}

/* The same bytes by memcpy and SHA-256 alone, or by memcpy. */
__attribute__((noinline)) static double alone(size_t length, size_t count, int digests)
{
    uint8_t digest[32], all = 0;
    double took = 0;
    for (size_t k = 0; k < count; k++) {
        memcpy(bytes, &k, sizeof k);
        double a = now();
        memcpy(copied, bytes, length);
        if (digests)
            sha256(copied, length, digest);
        took += now() - a;
        all ^= digests ? digest[0] : copied[k % length];
    }
    return all == 1 ? took + 1e-9 : took;
}

/* An agent's first object, of so many bytes. */
static uint32_t start(bpfagent *agent, size_t length)
{
    uint32_t object;
    must(bpfagent_new_handing(agent, 1 << 20));
    must(bpfagent_make(agent, length, &object));
    must(bpfagent_put(agent, object, 0, bytes, length));
    return object;
}

/* So many of each, for a count. */
static void run_once(size_t length, size_t count)
{
    bpfagent agent = BPFAGENT_INIT;
    uint32_t object = start(&agent, length);
    double out, back;
    move(&agent, object, count, &out, &back);
    alone(length, count, 1);
    bpfagent_delete(&agent);
}

static void measure(size_t length)
{
    static double times[SIDES][RUNS];
    static const char *const names[2] = { "left_into", "returned_from" };
    double best[SIDES];
    size_t count = length < 4096 ? 200 : length < 65536 ? 20 : 4;
    bpfagent agent = BPFAGENT_INIT;
    uint32_t object = start(&agent, length);
    for (int run = 0; run < RUNS; run++) {
        move(&agent, object, count, &times[0][run], &times[1][run]);
        times[2][run] = alone(length, count, 1);
        times[3][run] = alone(length, count, 0);
    }
    for (int side = 0; side < SIDES; side++)
        best[side] = tenth_percentile(times[side], RUNS) / (double)count;
    for (int side = 0; side < 2; side++)
        printf("%s of %zu bytes: %.0f ns, ratio %.2f beside %.0f ns of memcpy and SHA-256 in C; memcpy alone %.1f ns\n", names[side], length,
               best[side], best[side] / best[2], best[2], best[3]);
    bpfagent_delete(&agent);
}

/* SHA-256 of "abc", as FIPS 180-4 has it; and the agent's of the same bytes. */
static int agrees(void)
{
    static const uint8_t wanted[4] = { 0xba, 0x78, 0x16, 0xbf };
    uint8_t digest[32], buffer[3];
    bpfagent agent = BPFAGENT_INIT;
    bpfagent_parcel parcel;
    uint32_t object;
    size_t length;
    sha256((const uint8_t *)"abc", 3, digest);
    must(bpfagent_new_handing(&agent, 3));
    must(bpfagent_make(&agent, 3, &object));
    must(bpfagent_put(&agent, object, 0, (const uint8_t *)"abc", 3));
    must(bpfagent_leave(&agent, object));
    must(bpfagent_left_into(&agent, object, buffer, 3, &length, &parcel));
    bpfagent_delete(&agent);
    return !memcmp(digest, wanted, 4) && !memcmp(digest, parcel.digest, 32);
}

int main(int words, char **given)
{
    for (size_t k = 0; k < LARGEST; k++)
        bytes[k] = (uint8_t)(k * 131);
    if (!agrees()) {
        fprintf(stderr, "moves: the two SHA-256 differ\n");
        return 1;
    }
    if (words == 3) {
        run_once(strtoul(given[1], NULL, 10), strtoul(given[2], NULL, 10));
        return 0;
    }
    for (size_t k = 0; k < sizeof LENGTHS / sizeof LENGTHS[0]; k++)
        measure(LENGTHS[k]);
    return 0;
}
