/* Accesses to shared objects in plain C, as crates/bench_threads does them: shared KIND COUNT THREADS. The layout and the atomic
   operations are the same: a word of 64 bits for each object on a cache line of its own, a body beside it in a second block, a
   window of four objects for each thread. An access in an open scope takes the turn by one atomic operation and gives it back by
   another. Prints the sum of the objects' numbers. */
#include <pthread.h>
#include <stdatomic.h>
#include <stdint.h>
#include <stdio.h>
#include <stdlib.h>
#include <string.h>

#define OBJECTS 8
#define LENGTH 256
#ifndef WORDS_APART
#define WORDS_APART 16 /* 1: words of neighbouring objects share a cache line */
#endif
#define NONE (UINT64_C(1) << 32)
#define STAMP_LIMIT ((UINT64_C(1) << 48) - 1)

enum kind { LOAD, STORE, ADD };
enum reach { DONE, AWAY, BUSY, OUTSIDE, WORN };

struct op {
    uint32_t offset;
    enum kind kind;
    uint64_t value;
};

struct body {
    uint8_t *bytes;
    size_t capacity, length;
};

struct table {
    _Atomic uint64_t *words;
    struct body *slots;
    size_t *lengths;
    size_t count;
};

struct seat {
    uint64_t window[4]; /* the newest first */
    uint64_t stamp;
};

static void *room(size_t bytes)
{
    void *p = calloc(1, bytes);
    if (!p) exit(3);
    return p;
}

static int holds(const struct seat *seat, uint64_t n)
{
    return seat->window[0] == n || seat->window[1] == n || seat->window[2] == n || seat->window[3] == n;
}

/* Opens the object's scope, if it is here, and closes that of the one that is pushed out. */
static int note(struct table *table, struct seat *seat, uint32_t n)
{
    if (holds(seat, n)) return 1;
    if (atomic_fetch_add(&table->words[n * WORDS_APART], 256) % 4 != 0) {
        atomic_fetch_sub(&table->words[n * WORDS_APART], 256);
        return 0;
    }
    uint64_t oldest = seat->window[3];
    memmove(seat->window + 1, seat->window, 3 * sizeof *seat->window);
    seat->window[0] = n;
    if (oldest != NONE) atomic_fetch_sub(&table->words[oldest * WORDS_APART], 256);
    return 1;
}

static uint64_t act(uint8_t *bytes, const struct op *op)
{
    uint64_t old;
    memcpy(&old, bytes + op->offset, 8);
    switch (op->kind) {
    case LOAD: return old;
    case STORE: memcpy(bytes + op->offset, &op->value, 8); return 0;
    default:
        memcpy(bytes + op->offset, &(uint64_t){ old + op->value }, 8);
        return old;
    }
}

__attribute__((noinline)) enum reach touch(struct table *table, struct seat *seat, uint32_t n, const struct op *op, uint64_t *answer)
{
    size_t length = n < table->count ? table->lengths[n] : 0;
    if (op->offset > length || length - op->offset < 8) return OUTSIDE;
    if (!note(table, seat, n)) return AWAY;
    uint64_t word = atomic_fetch_or(&table->words[n * WORDS_APART], 12);
    if (word & 4) return BUSY;
    uint64_t found = word >> 16, greatest = found > seat->stamp ? found : seat->stamp;
    if (greatest >= STAMP_LIMIT) {
        atomic_fetch_sub(&table->words[n * WORDS_APART], 4);
        return WORN;
    }
    *answer = act(table->slots[n].bytes, op);
    atomic_fetch_add(&table->words[n * WORDS_APART], (greatest + 1 - found) * 65536 - 4);
    seat->stamp = greatest + 1;
    return DONE;
}

struct job {
    struct table *table;
    struct op op;
    uint64_t count;
    uint32_t number;
};

static void *access_all(void *of)
{
    struct job *job = of;
    struct seat seat = { .window = { NONE, NONE, NONE, NONE } };
    uint64_t answer;
    for (uint64_t left = job->count; left;)
        if (touch(job->table, &seat, job->number, &job->op, &answer) == DONE) left--;
    return NULL;
}

static struct table opened(void)
{
    struct table table = { .count = OBJECTS + 1 };
    table.words = room(table.count * WORDS_APART * sizeof *table.words);
    table.slots = room(table.count * sizeof *table.slots);
    table.lengths = room(table.count * sizeof *table.lengths);
    for (size_t n = 1; n <= OBJECTS; n++) {
        table.slots[n] = (struct body){ room(LENGTH), LENGTH, LENGTH };
        table.lengths[n] = LENGTH;
    }
    return table;
}

static struct op op_of(const char *kind)
{
    return (struct op){ 0, !strcmp(kind, "load") ? LOAD : !strcmp(kind, "store") ? STORE : ADD, 1 };
}

int main(int argc, char **argv)
{
    uint32_t threads = argc == 4 ? (uint32_t)atoi(argv[3]) : 0;
    if (!threads || threads > OBJECTS) return 2;
    struct table table = opened();
    struct job jobs[OBJECTS];
    pthread_t made[OBJECTS];
    for (uint32_t k = 0; k < threads; k++) {
        jobs[k] = (struct job){ &table, op_of(argv[1]), strtoull(argv[2], NULL, 10), strcmp(argv[1], "all") ? k + 1 : 1 };
        if (pthread_create(&made[k], NULL, access_all, &jobs[k])) return 3;
    }
    uint64_t sum = 0, one;
    for (uint32_t k = 0; k < threads; k++) pthread_join(made[k], NULL);
    for (size_t n = 1; n <= OBJECTS; n++) {
        memcpy(&one, table.slots[n].bytes, 8);
        sum += one;
    }
    printf("%llu\n", (unsigned long long)sum);
    return 0;
}
