/* A small runtime: a hash table in four objects, of which two have room at a time; the others are far. Each of 8,192 keys is looked
   up by bpfagent_get, probe by probe, and then by a program that is shipped (examples/c/hash_table.lookup.c), which is given its
   keys in one more object and writes the values in their place. The values have to be the same.

   table hash_table.lookup.code */
#define _XOPEN_SOURCE 700
#include "common.h"
#include <time.h>

#define PARTS 4
#define PLACES 1000
#define KEPT 3000
#define KEYS 8192

struct pair {
    uint64_t key, value;
};

/* The table's parts, the batch of keys, and what the runtime counts. */
static uint32_t parts[PARTS], batch;
static uint64_t calls, crossed, moves;

/* Processor time, in nanoseconds. */
static double now(void)
{
    struct timespec t;
    clock_gettime(CLOCK_PROCESS_CPUTIME_ID, &t);
    return (double)t.tv_sec * 1e9 + (double)t.tv_nsec;
}

static uint64_t hash(uint64_t key)
{
    return key * 0x9e3779b97f4a7c15 >> 32;
}

/* Which part has a key. */
static unsigned part_of(uint64_t key)
{
    return key % PARTS;
}

/* Sends a part away that is here and that no machine has in an open scope. */
static void make_room(bpfagent *agent)
{
    for (unsigned k = 0; k < PARTS; k++) {
        if (bpfagent_leave(agent, parts[k]) == BPFAGENT_OK) {
            must(bpfagent_left(agent, parts[k]), BPFAGENT_OK, "left");
            moves++;
            return;
        }
    }
    must(BPFAGENT_NOROOM, BPFAGENT_OK, "no part can leave");
}

/* Brings an object back that is far. */
static void bring(bpfagent *agent, uint32_t object)
{
    uint32_t reply;
    while ((reply = bpfagent_return(agent, object)) == BPFAGENT_NOROOM)
        make_room(agent);
    must(reply, BPFAGENT_OK, "return");
    must(bpfagent_returned(agent, object), BPFAGENT_OK, "returned");
    moves++;
}

static struct pair pair_at(bpfagent *agent, uint32_t part, uint64_t place)
{
    struct pair pair;
    uint32_t offset = (uint32_t)(place * sizeof pair), reply;
    while ((reply = bpfagent_get(agent, part, offset, (uint8_t *)&pair, sizeof pair)) == BPFAGENT_AWAY)
        bring(agent, part);
    must(reply, BPFAGENT_OK, "get");
    calls++;
    crossed += sizeof pair;
    return pair;
}

static uint64_t value_of(bpfagent *agent, uint64_t key)
{
    for (uint64_t tried = 0; tried < PLACES; tried++) {
        struct pair pair = pair_at(agent, parts[part_of(key)], (hash(key) + tried) % PLACES);
        if (pair.key == key)
            return pair.value;
        if (pair.key == 0)
            return 0;
    }
    return 0;
}

static void insert(bpfagent *agent, uint64_t key, uint64_t value)
{
    uint32_t part = parts[part_of(key)];
    uint64_t place = hash(key) % PLACES;
    while (pair_at(agent, part, place).key != 0)
        place = (place + 1) % PLACES;
    struct pair pair = { key, value };
    must(bpfagent_put(agent, part, (uint32_t)(place * sizeof pair), (const uint8_t *)&pair, sizeof pair), BPFAGENT_OK, "put");
}

/* Makes an object; where the budget has no room, a part leaves first. */
static uint32_t make(bpfagent *agent, uint64_t length)
{
    uint32_t object, reply;
    while ((reply = bpfagent_make(agent, length, &object)) == BPFAGENT_NOROOM)
        make_room(agent);
    must(reply, BPFAGENT_OK, "make");
    return object;
}

/* Runs a machine to its end. It waits where its next instruction reaches an object that is far; the object is brought back then. */
static void finish(bpfagent *agent, size_t machine, uint64_t *ran, uint64_t *waits)
{
    bpfagent_end end;
    for (;;) {
        uint32_t reply = bpfagent_run(agent, machine, 100000, &end);
        calls++;
        *ran += end.ran;
        if (reply == BPFAGENT_WAITING) {
            ++*waits;
            bring(agent, (uint32_t)end.value);
        } else if (reply != BPFAGENT_RAN) {
            must(reply, BPFAGENT_STOPPED, "run");
            must(end.stop, BPFAGENT_EXIT, "stop");
            return;
        }
    }
}

/* Looks up keys of one part by a program, in place. */
static void look_up(bpfagent *agent, const uint8_t *code, size_t length, unsigned part, uint64_t *keys, uint64_t count, uint64_t *ran, uint64_t *waits)
{
    uint64_t part_at = bpfagent_address(parts[part], 0), keys_at = bpfagent_address(batch, 0);
    size_t machine;
    bpfagent_refusal refusal;
    must(bpfagent_put(agent, batch, 0, (const uint8_t *)keys, count * 8), BPFAGENT_OK, "put");
    must(bpfagent_ship(agent, code, length, 1u << 30, part_at, keys_at, count, 0, 0, &machine, &refusal), BPFAGENT_OK, "ship");
    finish(agent, machine, ran, waits);
    must(bpfagent_get(agent, batch, 0, (uint8_t *)keys, count * 8), BPFAGENT_OK, "get");
    calls += 3;
    crossed += length + 2 * count * 8;
}

static void report(const char *way, double took, double told)
{
    printf("%s: %" PRIu64 " calls, %" PRIu64 " bytes in and out of objects, %" PRIu64 " moves, %.0f ns a key\n",
           way, calls, crossed, moves, (told - took) / KEYS);
    calls = crossed = moves = 0;
}

int main(int count, char **words)
{
    static uint8_t code[32768];
    static uint64_t keys[PARTS][KEYS], values[PARTS][KEYS];
    uint64_t counts[PARTS] = { 0 }, found = 0, ran = 0, waits = 0;
    bpfagent agent = { 0 };

    if (count != 2) {
        fprintf(stderr, "table hash_table.lookup.code\n");
        return 2;
    }
    size_t length = code_of(words[1], code, sizeof code);
    must(bpfagent_new(&agent, 2 * PLACES * sizeof(struct pair) + KEYS * 8), BPFAGENT_OK, "new");
    batch = make(&agent, KEYS * 8);
    for (unsigned k = 0; k < PARTS; k++)
        parts[k] = make(&agent, PLACES * sizeof(struct pair));
    for (unsigned k = 0; k < PARTS; k++)
        for (uint64_t i = 1; i <= KEPT; i++)
            if (part_of(3 * i) == k)
                insert(&agent, 3 * i, i);
    for (uint64_t i = 0; i < KEYS; i++) {
        uint64_t key = 1 + i * 7919 % 9000;
        keys[part_of(key)][counts[part_of(key)]++] = key;
    }
    calls = crossed = moves = 0;

    double start = now();
    for (unsigned k = 0; k < PARTS; k++)
        for (uint64_t i = 0; i < counts[k]; i++)
            found += (values[k][i] = value_of(&agent, keys[k][i])) != 0;
    report("by get", start, now());
    start = now();
    for (unsigned k = 0; k < PARTS; k++)
        look_up(&agent, code, length, k, keys[k], counts[k], &ran, &waits);
    report("by program", start, now());
    for (unsigned k = 0; k < PARTS; k++)
        if (memcmp(keys[k], values[k], counts[k] * 8)) {
            fprintf(stderr, "the values differ\n");
            return 1;
        }
    printf("%d keys, %" PRIu64 " found, the same values both ways; %" PRIu64 " instructions, %" PRIu64 " waits\n", KEYS, found, ran, waits);
    bpfagent_delete(&agent);
    return 0;
}
