/* Calls of the library for C, as bytes say, for libFuzzer. Each answer is one that the table in bpfagent.h has for its call, nothing beside the
   memory that a call may write is written, and bytes that were put are those that are got until a program may have run. */
#include "../../examples/embed/machine_calls.h"
#include <stdbool.h>
#include <stdint.h>
#include <stdio.h>
#include <stdlib.h>
#include <string.h>

#define OBJECTS 8
#define LONGEST 65536
/* Beside each buffer stand as many bytes of this value. */
#define GUARD 64
#define MARK 0xa5

static const uint8_t *input;
static size_t left;
static uint8_t held[LONGEST + 2 * GUARD], shadow[OBJECTS + 1][LONGEST];
static size_t lengths[OBJECTS + 1];
static bool is_known[OBJECTS + 1];

static uint64_t take(size_t size)
{
    uint64_t value = 0;
    for (size_t k = 0; k < size && left; k++, left--)
        value = value << 8 | *input++;
    return value;
}

/* Small most of the time. */
static uint64_t number(void)
{
    uint8_t kind = (uint8_t)take(1);
    return kind < 200 ? kind % 20 : kind < 240 ? take(2) : take(8);
}

static const uint8_t *piece(size_t *length)
{
    size_t wanted = (size_t)number() * 8;
    *length = wanted < left ? wanted : left;
    const uint8_t *found = input;
    input += *length;
    left -= *length;
    return found;
}

static void fail(const char *call, uint32_t reply)
{
    fprintf(stderr, "%s: %s\n", call, bpfagent_name(reply));
    abort();
}

static uint32_t want(const char *call, uint32_t reply, uint64_t allowed)
{
    if (reply >= 64 || !(allowed >> reply & 1))
        fail(call, reply);
    return reply;
}

/* A buffer of so many bytes between guards. */
static uint8_t *room(size_t length)
{
    memset(held, MARK, length + 2 * GUARD);
    return held + GUARD;
}

static void want_guards(const char *call, size_t length)
{
    for (size_t k = 0; k < GUARD; k++)
        if (held[k] != MARK || held[GUARD + length + k] != MARK)
            fail(call, BPFAGENT_OUTSIDE);
}

static void forget_all(void)
{
    memset(is_known, 0, sizeof is_known);
}

static void on_objects(bpfagent *agent, uint8_t kind)
{
    static const uint64_t away = SET(NONE) | SET(IS_HERE) | SET(IS_LEAVING) | SET(IS_FAR) | SET(IS_RETURNING);
    uint32_t object = (uint32_t)number(), offset = (uint32_t)number(), made = 0;
    bool is_small = object >= 1 && object <= OBJECTS;
    size_t length = (size_t)number() % (LONGEST + 1), count = 0;
    bpfagent_parcel parcel;
    uint32_t place;
    switch (kind) {
    case 0:
        length = (size_t)number();
        if (want("make", bpfagent_make(agent, length, &made), SET(OK) | SET(BAD) | SET(FULL) | SET(NOROOM) | SET(NOMEM)) == BPFAGENT_OK && made <= OBJECTS) {
            lengths[made] = length;
            is_known[made] = true;
            memset(shadow[made], 0, length);
        }
        break;
    case 1: {
        const uint8_t *bytes = piece(&length);
        if (want("put", bpfagent_put(agent, object, offset, bytes, length), SET(OK) | SET(OUTSIDE) | SET(AWAY)) == BPFAGENT_OK && is_small && is_known[object])
            memcpy(shadow[object] + offset, bytes, length);
        break;
    }
    case 2: {
        uint8_t *bytes = room(length);
        if (want("get", bpfagent_get(agent, object, offset, bytes, length), SET(OK) | SET(OUTSIDE) | SET(AWAY)) == BPFAGENT_OK && is_small && is_known[object]
            && (offset + length > lengths[object] || memcmp(bytes, shadow[object] + offset, length)))
            fail("get of other bytes", BPFAGENT_OK);
        want_guards("get", length);
        break;
    }
    case 3: want("leave", bpfagent_leave(agent, object), SET(OK) | away | SET(SCOPED)); break;
    case 4: want("left", bpfagent_left(agent, object), SET(OK) | away | SET(FAULT_HERE)); break;
    case 5: want("return", bpfagent_return(agent, object), SET(OK) | away | SET(NOROOM)); break;
    case 6: want("returned", bpfagent_returned(agent, object), SET(OK) | away | SET(FAULT_FAR)); break;
    case 7: {
        uint8_t *bytes = room(length);
        uint32_t reply = want("left_into", bpfagent_left_into(agent, object, bytes, length, &count, &parcel), SET(OK) | away | SET(SHORT));
        want_guards("left_into", length);
        if (reply == BPFAGENT_OK) {
            if (is_small && is_known[object] && (count != lengths[object] || memcmp(bytes, shadow[object], count)))
                fail("left_into of other bytes", reply);
            /* At once, since nobody else keeps them. */
            want("return", bpfagent_return(agent, object), SET(OK) | SET(NOROOM));
            bytes[0] ^= (uint8_t)(offset & 1);
            reply = bpfagent_returned_from(agent, object, bytes, count);
            want("returned_from", reply, SET(OK) | SET(IS_FAR) | SET(FAULT_FAR) | (offset & 1 ? SET(DAMAGED) : 0));
            if (reply == BPFAGENT_OK && offset & 1)
                fail("returned_from of other bytes", reply);
        }
        break;
    }
    case 8: want("forget", bpfagent_forget(agent, object), SET(OK) | away); break;
    case 9: want("free", bpfagent_free(agent, object), SET(OK) | away | SET(SCOPED)); break;
    case 10: want("place_of", bpfagent_place_of(agent, object, &place, &length), SET(OK) | SET(NONE)); break;
    default: {
        uint32_t numbers[4];
        want("objects", bpfagent_objects(agent, offset, numbers, 4, &count), SET(OK) | SET(BAD));
    }
    }
}

static void on_code(bpfagent *agent, bool is_granted)
{
    size_t machine = 0, length;
    uint32_t object = (uint32_t)number();
    uint64_t address = number() << 32 | number();
    bpfagent_refusal refusal;
    const uint8_t *code = piece(&length);
    bpfagent_grant granted[2] = {{object % 20, 1}, {object % 7, 0}};
    uint32_t reply = is_granted ? bpfagent_ship_granted(agent, code, length, number(), address, 1, 2, 3, 4, granted, 2, &machine, &refusal)
                                : bpfagent_ship(agent, code, length, number(), address, 1, 2, 3, 4, &machine, &refusal);
    want("ship", reply, SET(OK) | SET(FULL) | SET(REFUSED) | SET(NOMEM) | (is_granted ? SET(BAD) : 0));
    if (reply != BPFAGENT_FULL && reply != BPFAGENT_BAD && reply != BPFAGENT_NOMEM
        && (bpfagent_check(code, length, &refusal) == BPFAGENT_OK) != (reply == BPFAGENT_OK))
        fail("check isn't what ship is", reply);
}

#define NUMBERED(name, memory, arguments, right, answers) ON_##name,
enum { MACHINE_CALLS(NUMBERED) ON_MACHINES };

static void on_machines(bpfagent *agent, unsigned call)
{
    size_t machine = (size_t)number(), length = (size_t)number() % 5000;
    uint32_t slot = (uint32_t)number(), reply = BPFAGENT_NONE;
    uint64_t address = number() << 32 | number(), steps = number() % 100000, values[64];
    struct machine_arguments with = {
        .slot = slot, .offset = slot, .address = address, .range = slot, .steps = steps, .bytes = room(length), .length = length, .values = values, .room = 64,
    };
    const char *name = "";
    switch (call) {
#define TRIED(called, memory, arguments, right, answers) \
    case ON_##called: \
        name = #called; \
        reply = want(#called, bpfagent_##called arguments, answers); \
        break;
        MACHINE_CALLS(TRIED)
    }
    want_guards(name, length);
    /* Then a program may have run. */
    if (reply >= BPFAGENT_RAN && reply <= BPFAGENT_STOPPED)
        forget_all();
}

static void on_texts(uint8_t kind)
{
    size_t length, count = 0;
    const uint8_t *text = piece(&length);
    bpfagent_refusal refusal;
    bpfagent_wrong_line wrong;
    if (kind == 0) {
        want("assemble", bpfagent_assemble(text, length, room(32768), 32768, &count, &wrong), SET(OK) | SET(REFUSED) | SET(NOMEM));
        want_guards("assemble", 32768);
    } else if (kind == 1) {
        want("check", bpfagent_check(text, length, &refusal), SET(OK) | SET(REFUSED) | SET(NOMEM));
    } else {
        want("text", bpfagent_text(text, length, (uint32_t)number(), room(256), 256, &count), SET(OK) | SET(REFUSED) | SET(NOSLOT) | SET(NOMEM));
        want_guards("text", 256);
    }
}

int LLVMFuzzerTestOneInput(const uint8_t *bytes, size_t size)
{
    bpfagent agent = BPFAGENT_INIT;
    input = bytes;
    left = size;
    forget_all();
    uint32_t budget = (uint32_t)take(4);
    if (want("new", budget & 1 ? bpfagent_new(&agent, budget) : bpfagent_new_handing(&agent, budget), SET(OK) | SET(NOMEM)) != BPFAGENT_OK)
        return 0;
    while (left) {
        uint8_t kind = (uint8_t)take(1);
        if (kind < 100)
            on_objects(&agent, kind % 12);
        else if (kind < 120)
            on_code(&agent, kind % 2 == 0);
        else if (kind < 220)
            on_machines(&agent, kind % ON_MACHINES);
        else
            on_texts(kind % 3);
    }
    bpfagent_delete(&agent);
    return 0;
}
