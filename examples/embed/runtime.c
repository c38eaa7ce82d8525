/* A small far-memory runtime, to copy from: a table of 200 objects, of which a tenth have room here. The others are in a file.

   Two threads use one agent, under one lock. The application looks keys up; an object that is away it brings home by pread. The
   evacuator has a clock of its own: at each tick, and whenever the application needs room, it sends objects away by pwrite. Both
   read and write the file without the lock, so that the other one, and the programs, go on meanwhile.

   The application looks up the same keys three times: by bpfagent_get, probe by probe; by a program that is shipped and works beside
   the objects; and by this program with each batch of keys sorted first. The values have to be the same.

   runtime [LOOKUPS [AGENTS]]: 10,000 lookups, and one agent. More agents run side by side, each with two threads of its own. */
#define _XOPEN_SOURCE 700
#include "common.h"
#include <pthread.h>
#include <stdbool.h>
#include <time.h>
#include <unistd.h>

#define PARTS 200u
#define PLACES 256u
#define PART_BYTES (PLACES * 16)
#define KEYS_A_PART 256u
#define BATCH 5000u
#define FILE_SLOT 65536
#define OBJECTS (PARTS + 3)
#define MOST (23 * BATCH)
#define BUDGET (PARTS / 10 * PART_BYTES + PARTS * 8 + BATCH * 8)
#define TICK_MS 2
#define PATIENCE_S 60

/* Looks up count (R3) keys in the batch at R2, and writes the values in their place. At R1 are the addresses of the parts. */
static const char PROGRAM[] = "mov r6, r1\n"
                              "mov r7, r2\n"
                              "mov r8, r3\n"
                              "next: jeq r8, 0, done\n"
                              "ldxdw r0, [r7]\n"
                              "mov r1, r0\n"
                              "rsh r1, 8 # the part of 256 keys\n"
                              "lsh r1, 3\n"
                              "add r1, r6\n"
                              "ldxdw r1, [r1] # where it begins\n"
                              "lddw r3, 0x9e3779b97f4a7c15\n"
                              "mov r2, r0\n"
                              "mul r2, r3\n"
                              "rsh r2, 56 # the first place to look at, of 256\n"
                              "mov r3, 0\n"
                              "probe: mov r4, r2\n"
                              "lsh r4, 4\n"
                              "add r4, r1\n"
                              "ldxdw r5, [r4]\n"
                              "jeq r5, r0, found\n"
                              "jeq r5, 0, missing\n"
                              "add r2, 1\n"
                              "and r2, 255\n"
                              "add r3, 1\n"
                              "jlt r3, 256, probe\n"
                              "missing: mov r0, 0\n"
                              "ja store\n"
                              "found: ldxdw r0, [r4+8]\n"
                              "store: stxdw [r7], r0\n"
                              "add r7, 8\n"
                              "sub r8, 1\n"
                              "ja next\n"
                              "done: mov r0, 0\n"
                              "exit\n";

/* What was done so far. */
struct counts {
    uint64_t out, back, written, read, crossed, waits;
};

/* What the runtime knows of an object. */
struct known {
    bool used;    /* since the evacuator's hand last passed it */
    bool writing; /* its bytes are on their way to the file */
    bool kept;    /* the file has bytes of this parcel */
    bpfagent_parcel parcel;
};

struct runtime {
    bpfagent agent;
    pthread_mutex_t lock; /* guards all that stands here */
    pthread_cond_t moved; /* an object came or went */
    pthread_cond_t asked; /* room is wanted, or the evacuator has to end */
    bool wanted, ends, failed;
    struct known known[OBJECTS]; /* by number */
    uint32_t parts[PARTS], directory, batch;
    uint32_t hand;
    struct counts counts, done[3]; /* so far, and each way */
    double took[3];
    uint64_t lookups, found;
    FILE *file;
};

/* ---- clocks */

static double now(void)
{
    struct timespec t;
    clock_gettime(CLOCK_MONOTONIC, &t);
    return (double)t.tv_sec * 1e6 + (double)t.tv_nsec / 1e3;
}

static struct timespec in(long milliseconds)
{
    struct timespec t;
    clock_gettime(CLOCK_MONOTONIC, &t);
    t.tv_sec += milliseconds / 1000;
    t.tv_nsec += milliseconds % 1000 * 1000000;
    if (t.tv_nsec >= 1000000000) {
        t.tv_nsec -= 1000000000;
        t.tv_sec++;
    }
    return t;
}

/* A condition whose waits end by the clock of `in`. That of the default, CLOCK_REALTIME, jumps when somebody sets it. */
static void init_condition(pthread_cond_t *condition)
{
    pthread_condattr_t attributes;
    if (pthread_condattr_init(&attributes) || pthread_condattr_setclock(&attributes, CLOCK_MONOTONIC) ||
        pthread_cond_init(condition, &attributes)) {
        fprintf(stderr, "no condition can be made\n");
        exit(1);
    }
    pthread_condattr_destroy(&attributes);
}

/* Waits until an object came or went, but not for ever. */
static void wait_for_a_move(struct runtime *r)
{
    struct timespec end = in(PATIENCE_S * 1000);
    if (pthread_cond_timedwait(&r->moved, &r->lock, &end)) {
        fprintf(stderr, "no object moved for %d seconds\n", PATIENCE_S);
        exit(1);
    }
}

/* ---- the file */

static void on_file(ssize_t moved, size_t wanted, const char *what)
{
    if (moved == (ssize_t)wanted)
        return;
    perror(what);
    exit(1);
}

static off_t place_in_file(uint32_t object)
{
    return (off_t)object * FILE_SLOT;
}

/* ---- the evacuator. Its functions are called with the lock. */

/* Writes bytes to the file without the lock. Until they are there the object can't come back. */
static void write_out(struct runtime *r, uint32_t object, const uint8_t *bytes, size_t length)
{
    r->known[object].writing = true;
    pthread_mutex_unlock(&r->lock);
    on_file(pwrite(fileno(r->file), bytes, length, place_in_file(object)), length, "pwrite");
    pthread_mutex_lock(&r->lock);
    r->known[object].writing = false;
    r->counts.written += length;
}

/* Sends an object away that may leave. If the file has these very bytes, since nobody wrote the object, they aren't written again. */
static bool send_away(struct runtime *r, uint32_t object)
{
    uint8_t bytes[FILE_SLOT];
    size_t length;
    bpfagent_parcel parcel;
    struct known *known = &r->known[object];
    if (bpfagent_leave(&r->agent, object) != BPFAGENT_OK)
        return false;
    must(bpfagent_left_into(&r->agent, object, bytes, sizeof bytes, &length, &parcel), BPFAGENT_OK, "left_into");
    r->counts.out++;
    if (!known->kept || memcmp(&known->parcel, &parcel, sizeof parcel)) {
        known->kept = true;
        known->parcel = parcel;
        write_out(r, object, bytes, length);
    }
    pthread_cond_broadcast(&r->moved);
    return true;
}

/* Sends one part away, by a clock: the hand passes all of them, and takes the first that wasn't used since it last came by. */
static bool evacuate(struct runtime *r)
{
    uint32_t here[OBJECTS];
    size_t count, start = 0;
    must(bpfagent_objects(&r->agent, BPFAGENT_HERE, here, OBJECTS, &count), BPFAGENT_OK, "objects");
    while (start < count && here[start] <= r->hand)
        start++;
    for (size_t k = 0; k < 2 * count; k++) {
        uint32_t object = here[(start + k) % count];
        r->hand = object;
        if (object == r->directory || object == r->batch)
            continue;
        if (r->known[object].used)
            r->known[object].used = false;
        else if (send_away(r, object))
            return true;
    }
    return false;
}

/* How much room the budget has, by what is here. */
static size_t room(struct runtime *r)
{
    uint32_t here[OBJECTS], place;
    size_t count, length, taken = 0;
    must(bpfagent_objects(&r->agent, BPFAGENT_HERE, here, OBJECTS, &count), BPFAGENT_OK, "objects");
    for (size_t k = 0; k < count; k++) {
        must(bpfagent_place_of(&r->agent, here[k], &place, &length), BPFAGENT_OK, "place_of");
        taken += length;
    }
    return taken < BUDGET ? BUDGET - taken : 0;
}

/* The evacuator: at each tick it makes room for one part, so that the application seldom waits for room. */
static void *evacuator(void *given)
{
    struct runtime *r = given;
    pthread_mutex_lock(&r->lock);
    while (!r->ends) {
        if (r->wanted || room(r) < PART_BYTES) {
            r->wanted = false;
            if (evacuate(r))
                continue;
        }
        struct timespec tick = in(TICK_MS);
        pthread_cond_timedwait(&r->asked, &r->lock, &tick);
    }
    pthread_mutex_unlock(&r->lock);
    return NULL;
}

/* ---- the application. What follows is called with the lock. */

/* Asks for room, and waits until an object went. */
static void ask_for_room(struct runtime *r)
{
    r->wanted = true;
    pthread_cond_signal(&r->asked);
    wait_for_a_move(r);
}

/* Brings an object home that is far. */
static void bring(struct runtime *r, uint32_t object)
{
    uint8_t bytes[FILE_SLOT];
    uint32_t place, reply;
    size_t length;
    must(bpfagent_place_of(&r->agent, object, &place, &length), BPFAGENT_OK, "place_of");
    while (r->known[object].writing)
        wait_for_a_move(r);
    while ((reply = bpfagent_return(&r->agent, object)) == BPFAGENT_NOROOM)
        ask_for_room(r);
    must(reply, BPFAGENT_OK, "return");
    pthread_mutex_unlock(&r->lock);
    on_file(pread(fileno(r->file), bytes, length, place_in_file(object)), length, "pread");
    pthread_mutex_lock(&r->lock);
    must(bpfagent_returned_from(&r->agent, object, bytes, length), BPFAGENT_OK, "returned_from");
    r->known[object].used = true;
    r->counts.back++;
    r->counts.read += length;
    pthread_cond_broadcast(&r->moved);
}

static uint32_t make(struct runtime *r, uint64_t length)
{
    uint32_t object, reply;
    while ((reply = bpfagent_make(&r->agent, length, &object)) == BPFAGENT_NOROOM)
        ask_for_room(r);
    must(reply, BPFAGENT_OK, "make");
    return object;
}

static void put(struct runtime *r, uint32_t object, const void *bytes, size_t length)
{
    uint32_t reply;
    while ((reply = bpfagent_put(&r->agent, object, 0, bytes, length)) == BPFAGENT_AWAY)
        bring(r, object);
    must(reply, BPFAGENT_OK, "put");
    r->known[object].used = true;
    r->counts.crossed += length;
}

static void get(struct runtime *r, uint32_t object, uint32_t offset, void *bytes, size_t length)
{
    uint32_t reply;
    while ((reply = bpfagent_get(&r->agent, object, offset, bytes, length)) == BPFAGENT_AWAY)
        bring(r, object);
    must(reply, BPFAGENT_OK, "get");
    r->known[object].used = true;
    r->counts.crossed += length;
}

/* ---- the table */

static uint64_t first_place(uint64_t key)
{
    return key * 0x9e3779b97f4a7c15 >> 56;
}

/* Fills the parts: of each 256 keys every second one is there. */
static void fill(struct runtime *r)
{
    uint64_t addresses[PARTS];
    for (uint64_t k = 0; k < PARTS; k++) {
        uint64_t pairs[PLACES][2] = { { 0 } };
        for (uint64_t key = k * KEYS_A_PART + 1; key < (k + 1) * KEYS_A_PART; key += 2) {
            uint64_t place = first_place(key);
            while (pairs[place][0])
                place = (place + 1) % PLACES;
            pairs[place][0] = key;
            pairs[place][1] = 1000000 + key;
        }
        r->parts[k] = make(r, PART_BYTES);
        put(r, r->parts[k], pairs, sizeof pairs);
        addresses[k] = bpfagent_address(r->parts[k], 0);
    }
    r->directory = make(r, sizeof addresses);
    put(r, r->directory, addresses, sizeof addresses);
    r->batch = make(r, BATCH * 8);
}

/* Keys in the order of the lookups: three of four are of the same tenth of the parts. */
static void choose(uint64_t *keys, uint64_t count)
{
    uint64_t state = 1;
    for (uint64_t k = 0; k < count; k++) {
        state = state * 6364136223846793005 + 1442695040888963407;
        uint64_t drawn = state >> 33, part = drawn / 1024 % (drawn % 4 ? PARTS / 10 : PARTS);
        keys[k] = part * KEYS_A_PART + 1 + drawn / 4 % (KEYS_A_PART - 1);
    }
}

static uint64_t look_up(struct runtime *r, uint64_t key)
{
    uint64_t place = first_place(key), pair[2];
    for (unsigned tried = 0; tried < PLACES; tried++) {
        get(r, r->parts[key / KEYS_A_PART], (uint32_t)((place + tried) % PLACES * 16), pair, sizeof pair);
        if (pair[0] == key)
            return pair[1];
        if (!pair[0])
            return 0;
    }
    return 0;
}

/* ---- the ways */

/* Runs a machine to its end. The lock is free between two turns, so the evacuator works on. */
static void finish(struct runtime *r, size_t machine)
{
    bpfagent_end end;
    for (;;) {
        uint32_t reply = bpfagent_run(&r->agent, machine, 1000, &end);
        if (reply == BPFAGENT_WAITING) {
            r->counts.waits++;
            bring(r, (uint32_t)end.value);
        } else if (reply != BPFAGENT_RAN) {
            must(reply, BPFAGENT_STOPPED, bpfagent_name(reply));
            must(end.stop, BPFAGENT_EXIT, "stop");
            return;
        }
        pthread_mutex_unlock(&r->lock);
        pthread_mutex_lock(&r->lock);
    }
}

static void ship(struct runtime *r, const uint8_t *code, size_t length, uint64_t *keys, uint64_t count)
{
    size_t machine;
    bpfagent_refusal refusal;
    put(r, r->batch, keys, count * 8);
    must(bpfagent_ship(&r->agent, code, length, UINT64_MAX, bpfagent_address(r->directory, 0), bpfagent_address(r->batch, 0), count, 0, 0,
                       &machine, &refusal),
         BPFAGENT_OK, "ship");
    r->counts.crossed += length;
    finish(r, machine);
    get(r, r->batch, 0, keys, count * 8);
}

static struct counts since(const struct counts *now, const struct counts *then)
{
    return (struct counts){ now->out - then->out,   now->back - then->back,       now->written - then->written,
                            now->read - then->read, now->crossed - then->crossed, now->waits - then->waits };
}

static void fetch_all(struct runtime *r, uint64_t *keys)
{
    for (uint64_t k = 0; k < r->lookups; k++)
        r->found += (keys[k] = look_up(r, keys[k])) != 0;
}

static void ship_all(struct runtime *r, uint64_t *keys)
{
    uint8_t code[512];
    size_t length;
    bpfagent_wrong_line wrong;
    must(bpfagent_assemble((const uint8_t *)PROGRAM, sizeof PROGRAM - 1, code, sizeof code, &length, &wrong), BPFAGENT_OK, "assemble");
    for (uint64_t k = 0; k < r->lookups; k += BATCH)
        ship(r, code, length, keys + k, r->lookups - k < BATCH ? r->lookups - k : BATCH);
}

/* A key with its place among the keys. */
struct placed {
    uint64_t key, place;
};

static int by_key(const void *a, const void *b)
{
    uint64_t x = ((const struct placed *)a)->key, y = ((const struct placed *)b)->key;
    return (x > y) - (x < y);
}

/* Each batch is sorted by part first, so that a part comes home once a batch. Its values go back to where their keys were. */
static void ship_sorted(struct runtime *r, uint64_t *keys)
{
    struct placed *placed = malloc(r->lookups * sizeof *placed);
    uint64_t *sorted = malloc(r->lookups * 8);
    if (!placed || !sorted)
        exit(1);
    for (uint64_t k = 0; k < r->lookups; k++)
        placed[k] = (struct placed){ keys[k], k };
    for (uint64_t k = 0; k < r->lookups; k += BATCH)
        qsort(placed + k, r->lookups - k < BATCH ? r->lookups - k : BATCH, sizeof placed[0], by_key);
    for (uint64_t k = 0; k < r->lookups; k++)
        sorted[k] = placed[k].key;
    ship_all(r, sorted);
    for (uint64_t k = 0; k < r->lookups; k++)
        keys[placed[k].place] = sorted[k];
    free(sorted);
    free(placed);
}

static const char *const NAMES[3] = { "fetching", "shipping", "shipping, sorted" };
static void (*const WAYS[3])(struct runtime *, uint64_t *) = { fetch_all, ship_all, ship_sorted };

static void *application(void *given)
{
    struct runtime *r = given;
    uint64_t *keys = malloc(r->lookups * 8), *values = malloc(r->lookups * 8), *first = malloc(r->lookups * 8);
    if (!keys || !values || !first)
        exit(1);
    choose(keys, r->lookups);
    pthread_mutex_lock(&r->lock);
    fill(r);
    for (int way = 0; way < 3; way++) {
        struct counts start = r->counts;
        double began = now();
        memcpy(values, keys, r->lookups * 8);
        WAYS[way](r, values);
        r->took[way] = now() - began;
        r->done[way] = since(&r->counts, &start);
        if (way == 0)
            memcpy(first, values, r->lookups * 8);
        r->failed |= memcmp(first, values, r->lookups * 8) != 0;
    }
    pthread_mutex_unlock(&r->lock);
    free(keys);
    free(values);
    free(first);
    return NULL;
}

/* ---- a whole runtime */

static void *run(void *given)
{
    struct runtime *r = given;
    pthread_t threads[2];
    r->file = tmpfile();
    if (!r->file) {
        perror("tmpfile");
        exit(1);
    }
    must(bpfagent_new_handing(&r->agent, BUDGET), BPFAGENT_OK, "new_handing");
    if (pthread_create(&threads[0], NULL, application, r) || pthread_create(&threads[1], NULL, evacuator, r))
        exit(1);
    pthread_join(threads[0], NULL);
    pthread_mutex_lock(&r->lock);
    r->ends = true;
    pthread_cond_signal(&r->asked);
    pthread_mutex_unlock(&r->lock);
    pthread_join(threads[1], NULL);
    bpfagent_delete(&r->agent);
    fclose(r->file);
    return NULL;
}

static void report(const char *way, const struct counts *c, double took, uint64_t lookups)
{
    printf("%-16s %9" PRIu64 " %9" PRIu64 " %12" PRIu64 " %12" PRIu64 " %14" PRIu64 " %12.2f\n", way, c->out, c->back, c->written, c->read,
           c->crossed, took / (double)lookups);
}

static bool show(const struct runtime *r)
{
    printf("%-16s %9s %9s %12s %12s %14s %12s\n", "", "moves out", "back", "bytes out", "bytes back", "bytes crossed", "us a lookup");
    for (int way = 0; way < 3; way++)
        report(NAMES[way], &r->done[way], r->took[way], r->lookups);
    printf("%" PRIu64 " lookups, %" PRIu64 " found, %s values each way\n", r->lookups, r->found, r->failed ? "different" : "the same");
    return !r->failed;
}

int main(int count, char **words)
{
    static struct runtime runtimes[8];
    pthread_t threads[8];
    unsigned long lookups = count > 1 ? strtoul(words[1], NULL, 10) : 10000, agents = count > 2 ? strtoul(words[2], NULL, 10) : 1;
    bool good = true;
    if (count > 3 || lookups == 0 || lookups > MOST || agents == 0 || agents > 8) {
        fprintf(stderr, "runtime [LOOKUPS [AGENTS]]: at most %u lookups and 8 agents\n", MOST);
        return 2;
    }
    for (unsigned long k = 0; k < agents; k++) {
        runtimes[k].lookups = lookups;
        pthread_mutex_init(&runtimes[k].lock, NULL);
        init_condition(&runtimes[k].moved);
        init_condition(&runtimes[k].asked);
        if (pthread_create(&threads[k], NULL, run, &runtimes[k]))
            return 1;
    }
    for (unsigned long k = 0; k < agents; k++)
        pthread_join(threads[k], NULL);
    for (unsigned long k = 0; k < agents; k++)
        good = show(&runtimes[k]) && good;
    return !good;
}
