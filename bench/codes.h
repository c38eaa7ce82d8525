/* The programs that bench/steps.c measures, and on which bench/forms.c compares the interpreters in C. */
#ifndef CODES_H
#define CODES_H
#include <stdint.h>
#include <stdio.h>
#include <stdlib.h>
#include <string.h>

#define CODE_LIMIT 32768
#define OBJECT_BYTES 65536
#define OBJECT(n) ((uint64_t)(n) << 32)
#define EXIT 0x95
/* How many instructions those of the made programs run that don't end. */
#define STEPS 400000
/* How many slots a program without a loop has. STEPS is a multiple. */
#define STRAIGHT_SLOTS 4000

struct code {
    uint8_t bytes[CODE_LIMIT];
    size_t length;
};

/* What R1 is, beside how many objects and machines the code runs, and how many objects are granted. */
struct setting {
    uint64_t argument;
    uint32_t objects;
    size_t machines, granted;
};

static void stored(const char *folder, const char *name, struct code *c)
{
    char path[512];
    snprintf(path, sizeof path, "%s/%s.code", folder, name);
    FILE *f = fopen(path, "rb");
    if (!f) {
        perror(path);
        exit(1);
    }
    c->length = fread(c->bytes, 1, sizeof c->bytes, f);
    fclose(f);
}

/* Appends a slot. */
static void put(struct code *c, uint8_t opcode, int dst, int src, int16_t offset, int32_t imm)
{
    uint8_t *b = c->bytes + c->length;
    b[0] = opcode;
    b[1] = (uint8_t)(src << 4 | dst);
    memcpy(b + 2, &offset, 2);
    memcpy(b + 4, &imm, 4);
    c->length += 8;
}

/* An unconditional jump back to a slot. */
static void back_to(struct code *c, size_t slot)
{
    put(c, 0x05, 0, 0, (int16_t)(slot - c->length / 8 - 1), 0);
}

/* A slot of a program that is made here. */
struct slot {
    uint8_t opcode;
    int dst, src;
    int16_t offset;
    int32_t imm;
};

/* These slots; behind them the program begins anew if its last one isn't an exit. */
static struct code made_of(const struct slot *slots, size_t count)
{
    struct code c = { .length = 0 };
    for (size_t n = 0; n < count; n++) put(&c, slots[n].opcode, slots[n].dst, slots[n].src, slots[n].offset, slots[n].imm);
    if (slots[count - 1].opcode != EXIT) back_to(&c, 0);
    return c;
}

#define MADE_OF(...) made_of((const struct slot[]){ __VA_ARGS__ }, sizeof (struct slot[]){ __VA_ARGS__ } / sizeof(struct slot))

static struct code counting(void)
{
    return MADE_OF({ 0x07, 0, 0, 0, 1 },   /* r0 += 1 */
                   { 0x55, 0, 0, -2, -1 }, /* if r0 != -1 goto -2 */
                   { EXIT, 0, 0, 0, 0 });
}

static struct code straight(void)
{
    return MADE_OF({ 0x07, 6, 0, 0, 3 },  /* r6 += 3 */
                   { 0x2f, 6, 1, 0, 0 },  /* r6 *= r1 */
                   { 0xa7, 6, 0, 0, 5 },  /* r6 ^= 5 */
                   { 0x77, 6, 0, 0, 1 },  /* r6 >>= 1 */
                   { 0x4f, 6, 1, 0, 0 },  /* r6 |= r1 */
                   { 0x17, 6, 0, 0, 7 },  /* r6 -= 7 */
                   { 0x0c, 6, 1, 0, 0 }); /* r6 += r1, of 32 bits */
}

/* A call of a function that calls one that adds. */
static struct code calls(void)
{
    struct code c = MADE_OF({ 0x85, 0, 1, 0, 1 });
    struct code functions = MADE_OF({ 0x85, 0, 1, 0, 1 }, { EXIT, 0, 0, 0, 0 }, { 0x07, 0, 0, 0, 1 }, { EXIT, 0, 0, 0, 0 });
    memcpy(c.bytes + c.length, functions.bytes, functions.length);
    c.length += functions.length;
    return c;
}

/* Of 8, 4, 2 and 1 bytes. */
static struct code loads(void)
{
    return MADE_OF({ 0x79, 0, 1, 8, 0 }, { 0x61, 0, 1, 16, 0 }, { 0x69, 0, 1, 24, 0 }, { 0x91, 0, 1, 32, 0 });
}

/* Three stores to the object, and one to the stack. */
static struct code stores(void)
{
    return MADE_OF({ 0x7b, 1, 1, 8, 0 }, { 0x62, 1, 0, 16, 7 }, { 0x6b, 1, 1, 24, 0 }, { 0x73, 10, 1, -8, 0 });
}

/* An addition, one of 4 bytes with a fetch, an exchange, a comparison and exchange. */
static struct code atomics(void)
{
    return MADE_OF({ 0xdb, 1, 2, 8, 0x00 }, { 0xc3, 1, 2, 16, 0x01 }, { 0xdb, 1, 2, 24, 0xe1 }, { 0xdb, 1, 2, 8, 0xf1 });
}

/* The slots of `begin`, then those of `again` over and over, and a jump back to the start as the last of 4,000: a program without a
   loop, for whoever runs it again from its start. Before the jump R0 takes up a word of the object, since R0 is what is compared. */
static struct code straight_code(struct code begin, struct code again)
{
    size_t limit = 8 * (STRAIGHT_SLOTS - 3);
    /* Both end with a jump. */
    begin.length -= 8;
    again.length -= 8;
    while (begin.length < limit) {
        size_t length = again.length < limit - begin.length ? again.length : limit - begin.length;
        memcpy(begin.bytes + begin.length, again.bytes, length);
        begin.length += length;
    }
    put(&begin, 0x79, 3, 1, 8, 0);
    put(&begin, 0x0f, 0, 3, 0, 0);
    back_to(&begin, 0);
    return begin;
}

#define R0_AND_R2 { 0xb7, 0, 0, 0, 1 }, { 0xb7, 2, 0, 0, 7 }

static struct code straight_arithmetic(void)
{
    return straight_code(MADE_OF(R0_AND_R2), MADE_OF({ 0x07, 0, 0, 0, 3 }, { 0x2f, 0, 2, 0, 0 }, { 0xa7, 0, 0, 0, 5 }, { 0x77, 0, 0, 0, 1 },
                                                     { 0x4f, 0, 2, 0, 0 }, { 0x17, 0, 0, 0, 7 }, { 0x0c, 0, 2, 0, 0 }));
}

static struct code straight_loads(void)
{
    return straight_code(MADE_OF({ 0x7a, 1, 0, 8, 7 }, { 0x7a, 1, 0, 32, 9 }),
                         MADE_OF({ 0x79, 0, 1, 8, 0 }, { 0x61, 0, 1, 16, 0 }, { 0x69, 0, 1, 24, 0 }, { 0x71, 0, 1, 32, 0 }));
}

static struct code straight_stores(void)
{
    return straight_code(MADE_OF(R0_AND_R2), MADE_OF({ 0x7b, 1, 2, 8, 0 }, { 0x62, 1, 0, 16, 7 }, { 0x6b, 1, 2, 24, 0 }, { 0x73, 10, 2, -8, 0 }));
}

/* Atomic ones, of 8 and of 4 bytes. */
static struct code straight_additions(void)
{
    return straight_code(MADE_OF(R0_AND_R2), MADE_OF({ 0xdb, 1, 2, 8, 0x00 }, { 0xc3, 1, 2, 16, 0x00 }));
}

/* Forty loads in a loop, from so many objects in turn. A machine has four of them in its scopes. */
static struct code loads_in_turn(int objects)
{
    struct code c = { .length = 0 };
    for (int k = 0; k < objects; k++) {
        put(&c, 0x18, k + 1, 0, 0, 0);
        put(&c, 0, 0, 0, 0, 1 + k);
    }
    for (int k = 0; k < 40; k++) put(&c, 0x79, 0, k % objects + 1, 8, 0);
    back_to(&c, (size_t)objects * 2);
    return c;
}

static struct code loads_of_1(void)
{
    return loads_in_turn(1);
}

static struct code loads_of_2(void)
{
    return loads_in_turn(2);
}

static struct code loads_of_4(void)
{
    return loads_in_turn(4);
}

static struct code loads_of_5(void)
{
    return loads_in_turn(5);
}

static struct code loads_of_8(void)
{
    return loads_in_turn(8);
}

#define COMPILED 5
#define ROWS 10
#define STRAIGHT 4

static const char *const compiled_names[COMPILED] = { "checksum", "gcd", "sieve", "sort", "table" };

/* Programs made here, with what R1 is: the first ROWS are those compared with C, the last STRAIGHT of them without a loop. The others
   load beside more objects or machines, or with 16 grants. */
static const struct {
    const char *name;
    struct code (*code)(void);
    struct setting setting;
} made[] = {
    { "counting loop", counting, { OBJECT(1), 1, 1, 0 } },
    { "straight arithmetic", straight, { OBJECT(1), 1, 1, 0 } },
    { "nested calls", calls, { OBJECT(1), 1, 1, 0 } },
    { "loads", loads, { OBJECT(1), 1, 1, 0 } },
    { "stores", stores, { OBJECT(1), 1, 1, 0 } },
    { "atomic operations", atomics, { OBJECT(1), 1, 1, 0 } },
    { "arithmetic, 4000 slots", straight_arithmetic, { OBJECT(1), 1, 1, 0 } },
    { "loads, 4000 slots", straight_loads, { OBJECT(1), 1, 1, 0 } },
    { "stores, 4000 slots", straight_stores, { OBJECT(1), 1, 1, 0 } },
    { "additions, 4000 slots", straight_additions, { OBJECT(1), 1, 1, 0 } },
    { "loads, 1 in turn", loads_of_1, { OBJECT(1), 8, 1, 0 } },
    { "loads, 2 in turn", loads_of_2, { OBJECT(1), 8, 1, 0 } },
    { "loads, 4 in turn", loads_of_4, { OBJECT(1), 8, 1, 0 } },
    { "loads, 5 in turn", loads_of_5, { OBJECT(1), 8, 1, 0 } },
    { "loads, 8 in turn", loads_of_8, { OBJECT(1), 8, 1, 0 } },
    { "loads, 16 granted", loads, { OBJECT(1), 1, 1, 16 } },
    { "loads, 1024 objects", loads, { OBJECT(1024), 1024, 1, 0 } },
    { "loads, 48 machines", loads, { OBJECT(1), 1, 48, 0 } },
};

#endif
