/* Each call with each of its answers but BPFAGENT_NOMEM, which `failing` brings about. It prints how many wrong calls there were, and ends
   with 1 if a call is answered otherwise. The library cannot test for null pointers and copied handles, so they aren't tried. */
#include "common.h"
#include "machine_calls.h"

static unsigned wrong;

static void wants(uint32_t reply, uint32_t wanted, const char *what)
{
    must(reply, wanted, what);
    wrong++;
}

/* r0 = *(u64 *)r1; emit r0; exit: `ldxdw r0, [r1]`, `mov r1, r0`, `call 3`, `exit`. */
static const uint8_t CODE[] = { 0x79, 0x10, 0, 0, 0, 0, 0, 0, 0xbf, 0x01, 0, 0, 0, 0, 0, 0, 0x85, 0, 0, 0, 3, 0, 0, 0, 0x95, 0, 0, 0, 0, 0, 0, 0 };
/* *(u64 *)(r10 - 8) = 7; then three times *(u64 *)r1 = 7; exit. */
static const uint8_t STORE[] = {
    0x7a, 10, 0xf8, 0xff, 7, 0, 0, 0,
    0x7a, 1, 0, 0, 7, 0, 0, 0,
    0x7a, 1, 0, 0, 7, 0, 0, 0,
    0x7a, 1, 0, 0, 7, 0, 0, 0,
    0x95, 0, 0, 0, 0, 0, 0, 0,
};

static uint32_t ship(bpfagent *agent, const uint8_t *code, size_t length, uint64_t r1, size_t *machine, bpfagent_refusal *refusal)
{
    return bpfagent_ship(agent, code, length, 100, r1, 0, 0, 0, 0, machine, refusal);
}

/* A handle without an agent: every call on objects. What can't be is told first. */
static void no_agent_of_objects(bpfagent *a)
{
    uint32_t object = 77, place = 77;
    size_t count = 77;
    uint8_t bytes[8] = { 77 };
    bpfagent_parcel parcel = { { 77 } };

    wants(bpfagent_make(a, 0, &object), BPFAGENT_BAD, "make 0");
    wants(bpfagent_make(a, 8, &object), BPFAGENT_NOAGENT, "make");
    wants(bpfagent_free(a, 1), BPFAGENT_NOAGENT, "free");
    wants(bpfagent_put(a, 1, 0, bytes, 8), BPFAGENT_NOAGENT, "put");
    wants(bpfagent_get(a, 1, 0, bytes, 8), BPFAGENT_NOAGENT, "get");
    wants(bpfagent_leave(a, 1), BPFAGENT_NOAGENT, "leave");
    wants(bpfagent_left(a, 1), BPFAGENT_NOAGENT, "left");
    wants(bpfagent_return(a, 1), BPFAGENT_NOAGENT, "return");
    wants(bpfagent_returned(a, 1), BPFAGENT_NOAGENT, "returned");
    wants(bpfagent_left_into(a, 1, bytes, 8, &count, &parcel), BPFAGENT_NOAGENT, "left_into");
    wants(bpfagent_returned_from(a, 1, bytes, 8), BPFAGENT_NOAGENT, "returned_from");
    wants(bpfagent_forget(a, 1), BPFAGENT_NOAGENT, "forget");
    wants(bpfagent_place_of(a, 1, &place, &count), BPFAGENT_NOAGENT, "place_of");
    wants(bpfagent_objects(a, BPFAGENT_HERE, &object, 1, &count), BPFAGENT_NOAGENT, "objects");
    wants(bpfagent_objects(a, 4, &object, 1, &count), BPFAGENT_BAD, "objects in a place that isn't one");
    must(object == 77 && place == 77 && count == 77 && bytes[0] == 77 && parcel.digest[0] == 77, 1, "nothing was written");
}

/* The same of the calls that make a machine. */
static void no_agent_of_code(bpfagent *a)
{
    size_t machine = 77;
    bpfagent_refusal refusal = { 77, 77 };
    bpfagent_grant grants[17] = { { 1, 1 } };

    wants(ship(a, CODE, sizeof CODE, 0, &machine, &refusal), BPFAGENT_NOAGENT, "ship");
    wants(bpfagent_ship_granted(a, CODE, sizeof CODE, 100, 0, 0, 0, 0, 0, grants, 1, &machine, &refusal), BPFAGENT_NOAGENT, "ship_granted");
    wants(bpfagent_ship_granted(a, CODE, sizeof CODE, 100, 0, 0, 0, 0, 0, grants, 17, &machine, &refusal), BPFAGENT_BAD, "17 grants");
    must(machine == 77 && refusal.reason == 77, 1, "nothing was written");
}

/* Fills the memory that calls on a machine may write with bytes of 77. */
static void mark(struct machine_arguments *with)
{
    memset(with->bytes, 77, with->length);
    memset(with->values, 77, with->room * sizeof *with->values);
    memset(&with->told, 77, sizeof with->told);
}

static int is_77(const void *memory, size_t length)
{
    const uint8_t *bytes = memory;
    size_t k = 0;
    while (k < length && bytes[k] == 77) k++;
    return k == length;
}

/* Whether it still holds them. */
static int is_marked(const struct machine_arguments *with)
{
    return is_77(with->bytes, with->length) && is_77(with->values, with->room * sizeof *with->values) && is_77(&with->told, sizeof with->told);
}

/* A handle without an agent: every call on a machine. */
static void no_agent_of_machines(bpfagent *agent)
{
    const size_t machine = 1;
    uint8_t bytes[8];
    uint64_t values[2];
    struct machine_arguments with = { .range = 1, .steps = 9, .bytes = bytes, .length = 8, .values = values, .room = 2 };

    mark(&with);
#define NO_AGENT(name, memory, arguments, right, answers) wants(bpfagent_##name arguments, BPFAGENT_NOAGENT, #name);
    MACHINE_CALLS(NO_AGENT)
    must(is_marked(&with), 1, "nothing was written");
}

static void no_agent(bpfagent *a)
{
    no_agent_of_objects(a);
    no_agent_of_code(a);
    no_agent_of_machines(a);
    bpfagent_delete(a);
}

static void objects(bpfagent *a, uint32_t *object)
{
    static uint8_t bytes[100000];
    wants(bpfagent_make(a, 0, object), BPFAGENT_BAD, "make 0");
    wants(bpfagent_make(a, 65537, object), BPFAGENT_BAD, "make 65537");
    wants(bpfagent_make(a, UINT64_MAX, object), BPFAGENT_BAD, "make 2^64 - 1");
    wants(bpfagent_make(a, 65536, object), BPFAGENT_NOROOM, "make 65536");
    must(bpfagent_make(a, 8, object), BPFAGENT_OK, "make");
    wants(bpfagent_put(a, *object, 0, bytes, 9), BPFAGENT_OUTSIDE, "put 9");
    wants(bpfagent_put(a, *object, 0, bytes, sizeof bytes), BPFAGENT_OUTSIDE, "put 100000");
    wants(bpfagent_put(a, *object, UINT32_MAX, bytes, 1), BPFAGENT_OUTSIDE, "put far off");
    wants(bpfagent_get(a, *object, 1, bytes, 8), BPFAGENT_OUTSIDE, "get 8 from 1");
    wants(bpfagent_get(a, *object, 0, bytes, sizeof bytes), BPFAGENT_OUTSIDE, "get 100000");
}

/* An object that there isn't. */
static void no_object(bpfagent *a, uint32_t n)
{
    uint8_t bytes[8] = { 77 };
    uint32_t place = 77;
    size_t length = 77;
    bpfagent_parcel parcel;

    wants(bpfagent_put(a, n, 0, bytes, 1), BPFAGENT_OUTSIDE, "put into no object");
    wants(bpfagent_put(a, n, 0, bytes, 0), BPFAGENT_OUTSIDE, "put of no bytes into no object");
    wants(bpfagent_get(a, n, 0, bytes, 1), BPFAGENT_OUTSIDE, "get of no object");
    wants(bpfagent_free(a, n), BPFAGENT_NONE, "free");
    wants(bpfagent_leave(a, n), BPFAGENT_NONE, "leave");
    wants(bpfagent_left(a, n), BPFAGENT_NONE, "left");
    wants(bpfagent_left_into(a, n, bytes, 8, &length, &parcel), BPFAGENT_NONE, "left_into");
    wants(bpfagent_return(a, n), BPFAGENT_NONE, "return");
    wants(bpfagent_returned(a, n), BPFAGENT_NONE, "returned");
    wants(bpfagent_returned_from(a, n, bytes, 8), BPFAGENT_NONE, "returned_from");
    wants(bpfagent_forget(a, n), BPFAGENT_NONE, "forget");
    wants(bpfagent_place_of(a, n, &place, &length), BPFAGENT_NONE, "place_of");
    must(bytes[0] == 77 && place == 77 && length == 77, 1, "nothing was written");
}

/* An object in each place, and every move that isn't for an object there. */
static void in_each_place(bpfagent *a, uint32_t n)
{
    uint8_t bytes[8] = { 0 };
    size_t length = 0;
    bpfagent_parcel parcel;

    wants(bpfagent_left(a, n), BPFAGENT_IS_HERE, "left");
    wants(bpfagent_left_into(a, n, bytes, 8, &length, &parcel), BPFAGENT_IS_HERE, "left_into");
    wants(bpfagent_return(a, n), BPFAGENT_IS_HERE, "return");
    wants(bpfagent_returned(a, n), BPFAGENT_IS_HERE, "returned");
    wants(bpfagent_returned_from(a, n, bytes, 8), BPFAGENT_IS_HERE, "returned_from");
    wants(bpfagent_forget(a, n), BPFAGENT_IS_HERE, "forget");
    must(bpfagent_leave(a, n), BPFAGENT_OK, "leave");
    wants(bpfagent_put(a, n, 0, bytes, 8), BPFAGENT_AWAY, "put");
    wants(bpfagent_get(a, n, 0, bytes, 8), BPFAGENT_AWAY, "get");
    wants(bpfagent_free(a, n), BPFAGENT_IS_LEAVING, "free");
    wants(bpfagent_leave(a, n), BPFAGENT_IS_LEAVING, "leave");
    wants(bpfagent_return(a, n), BPFAGENT_IS_LEAVING, "return");
    wants(bpfagent_returned(a, n), BPFAGENT_IS_LEAVING, "returned");
    wants(bpfagent_returned_from(a, n, bytes, 8), BPFAGENT_IS_LEAVING, "returned_from");
    wants(bpfagent_forget(a, n), BPFAGENT_IS_LEAVING, "forget");
    must(bpfagent_left(a, n), BPFAGENT_OK, "left");
    wants(bpfagent_free(a, n), BPFAGENT_IS_FAR, "free");
    wants(bpfagent_leave(a, n), BPFAGENT_IS_FAR, "leave");
    wants(bpfagent_left(a, n), BPFAGENT_IS_FAR, "left");
    wants(bpfagent_left_into(a, n, bytes, 8, &length, &parcel), BPFAGENT_IS_FAR, "left_into");
    wants(bpfagent_returned(a, n), BPFAGENT_IS_FAR, "returned");
    wants(bpfagent_returned_from(a, n, bytes, 8), BPFAGENT_IS_FAR, "returned_from");
    must(bpfagent_return(a, n), BPFAGENT_OK, "return");
    wants(bpfagent_free(a, n), BPFAGENT_IS_RETURNING, "free");
    wants(bpfagent_leave(a, n), BPFAGENT_IS_RETURNING, "leave");
    wants(bpfagent_left(a, n), BPFAGENT_IS_RETURNING, "left");
    wants(bpfagent_left_into(a, n, bytes, 8, &length, &parcel), BPFAGENT_IS_RETURNING, "left_into");
    wants(bpfagent_return(a, n), BPFAGENT_IS_RETURNING, "return");
    wants(bpfagent_forget(a, n), BPFAGENT_IS_RETURNING, "forget");
    must(bpfagent_returned(a, n), BPFAGENT_OK, "returned");
}

/* As many objects as an agent has in its life, and no room in the budget. */
static void all_objects(void)
{
    bpfagent a = BPFAGENT_INIT;
    uint32_t object = 0, listed[2] = { 0, 0 };
    size_t count = 0;

    must(bpfagent_new(&a, 1024), BPFAGENT_OK, "new");
    for (unsigned k = 1; k <= 1024; k++)
        must(bpfagent_make(&a, 1, &object) + object, k, "make");
    wants(bpfagent_make(&a, 1, &object), BPFAGENT_FULL, "make 1025");
    must(bpfagent_objects(&a, BPFAGENT_HERE, listed, 2, &count), BPFAGENT_OK, "objects");
    must(count == 1024 && listed[0] == 1 && listed[1] == 2, 1, "the first two of all");
    must(bpfagent_free(&a, 3), BPFAGENT_OK, "free");
    wants(bpfagent_make(&a, 1, &object), BPFAGENT_FULL, "make after free");
    bpfagent_delete(&a);

    must(bpfagent_new(&a, 8), BPFAGENT_OK, "new");
    must(bpfagent_make(&a, 8, &object), BPFAGENT_OK, "make");
    must(bpfagent_leave(&a, 1), BPFAGENT_OK, "leave");
    wants(bpfagent_make(&a, 1, &object), BPFAGENT_NOROOM, "make beside one that leaves");
    must(bpfagent_left(&a, 1), BPFAGENT_OK, "left");
    must(bpfagent_make(&a, 1, &object), BPFAGENT_OK, "make");
    wants(bpfagent_return(&a, 1), BPFAGENT_NOROOM, "return");
    must(bpfagent_free(&a, object), BPFAGENT_OK, "free");
    must(bpfagent_return(&a, 1), BPFAGENT_OK, "return");
    bpfagent_delete(&a);
}

/* An object whose bytes the caller keeps: it leaves, and comes back. */
static void handed(bpfagent *a, uint32_t object, bpfagent_parcel *parcel)
{
    uint8_t bytes[16] = { 0 };
    uint32_t place = 77;
    size_t length = 0;

    must(bpfagent_put(a, object, 0, (const uint8_t *)"abcdefgh", 8), BPFAGENT_OK, "put");
    wants(bpfagent_left_into(a, object, bytes, 7, &length, parcel), BPFAGENT_SHORT, "left_into of one that is here");
    must(bpfagent_leave(a, object), BPFAGENT_OK, "leave");
    wants(bpfagent_left(a, object), BPFAGENT_FAULT_HERE, "left, where the caller keeps the bytes");
    must(bpfagent_leave(a, object), BPFAGENT_OK, "leave");
    length = 0;
    wants(bpfagent_left_into(a, object, bytes, 7, &length, parcel), BPFAGENT_SHORT, "left_into of 7 bytes");
    must(length == 8 && bytes[0] == 0, 1, "only how many bytes there are is told");
    must(bpfagent_left_into(a, object, bytes, 16, &length, parcel), BPFAGENT_OK, "left_into");
    must(length == 8 && !memcmp(bytes, "abcdefgh\0", 9), 1, "the bytes of the object, and no more");
    must(bpfagent_return(a, object), BPFAGENT_OK, "return");
    wants(bpfagent_returned(a, object), BPFAGENT_FAULT_FAR, "returned, where the caller keeps the bytes");
    must(bpfagent_return(a, object), BPFAGENT_OK, "return");
    wants(bpfagent_returned_from(a, object, bytes, 7), BPFAGENT_DAMAGED, "returned_from of 7 bytes");
    must(bpfagent_place_of(a, object, &place, &length), BPFAGENT_OK, "place_of");
    must(place == BPFAGENT_FAR && length == 8, 1, "it is far again");
    must(bpfagent_return(a, object), BPFAGENT_OK, "return");
    bytes[7] ^= 1;
    wants(bpfagent_returned_from(a, object, bytes, 8), BPFAGENT_DAMAGED, "returned_from of other bytes");
    bytes[7] ^= 1;
    must(bpfagent_return(a, object), BPFAGENT_OK, "return");
    must(bpfagent_returned_from(a, object, bytes, 8), BPFAGENT_OK, "returned_from");
    must(bpfagent_get(a, object, 0, bytes + 8, 8), BPFAGENT_OK, "get");
    must(!memcmp(bytes, bytes + 8, 8), 1, "the bytes came back");
}

/* The same object, of which nothing was written since: the bytes of before stand for it, and it is freed where it is far. */
static void unwritten(bpfagent *a, uint32_t object, const bpfagent_parcel *parcel)
{
    bpfagent_parcel again;
    uint8_t bytes[16] = { 0 };
    uint32_t listed[2] = { 0, 0 };
    size_t length = 0, count = 0;

    must(bpfagent_leave(a, object), BPFAGENT_OK, "leave");
    must(bpfagent_left(a, object), BPFAGENT_OK, "left of one that wasn't written");
    must(bpfagent_return(a, object), BPFAGENT_OK, "return");
    must(bpfagent_returned_from(a, object, (const uint8_t *)"abcdefgh", 8), BPFAGENT_OK, "returned_from");
    must(bpfagent_leave(a, object), BPFAGENT_OK, "leave");
    must(bpfagent_left_into(a, object, bytes, 8, &length, &again), BPFAGENT_OK, "left_into of one that wasn't written");
    must(!memcmp(parcel, &again, sizeof again) && !memcmp(bytes, "abcdefgh\0", 9), 1, "the same bytes and the same parcel");
    wants(bpfagent_free(a, object), BPFAGENT_IS_FAR, "free of one that is far");
    must(bpfagent_objects(a, BPFAGENT_FAR, listed, 2, &count), BPFAGENT_OK, "objects");
    must(count == 1 && listed[0] == object && listed[1] == 0, 1, "one object is far");
    must(bpfagent_forget(a, object), BPFAGENT_OK, "forget");
    wants(bpfagent_forget(a, object), BPFAGENT_NONE, "forget twice");
    no_object(a, object);
    wants(bpfagent_objects(a, 4, listed, 2, &count), BPFAGENT_BAD, "objects in place 4");
    must(bpfagent_objects(a, BPFAGENT_FAR, listed, 2, &count), BPFAGENT_OK, "objects");
    must(count == 0, 1, "no object is far");
}

/* An agent whose caller keeps the bytes, and one that keeps them itself, but for those that were asked for. */
static void keepers(void)
{
    bpfagent a = BPFAGENT_INIT;
    bpfagent_parcel parcel;
    uint8_t bytes[8] = { 0 };
    uint32_t object = 0;
    size_t length = 0;

    must(bpfagent_new_handing(&a, 1000), BPFAGENT_OK, "new_handing");
    must(bpfagent_make(&a, 8, &object), BPFAGENT_OK, "make");
    handed(&a, object, &parcel);
    unwritten(&a, object, &parcel);
    must(bpfagent_new(&a, 1000), BPFAGENT_OK, "new in place of another");
    must(bpfagent_make(&a, 8, &object), BPFAGENT_OK, "make");
    must(bpfagent_leave(&a, object), BPFAGENT_OK, "leave");
    must(bpfagent_left_into(&a, object, bytes, 8, &length, &parcel), BPFAGENT_OK, "left_into");
    must(bpfagent_return(&a, object), BPFAGENT_OK, "return");
    wants(bpfagent_returned(&a, object), BPFAGENT_FAULT_FAR, "returned of one that was handed out");
    must(bpfagent_return(&a, object), BPFAGENT_OK, "return");
    must(bpfagent_returned_from(&a, object, bytes, 8), BPFAGENT_OK, "returned_from");
    bpfagent_delete(&a);
}

/* Code and assembly, without an agent. */
static void texts(void)
{
    static const char line[] = "exit\nmov r11, 0\n";
    uint8_t made[16], text[256];
    size_t count = 77;
    bpfagent_wrong_line told = { 77, 77 };
    bpfagent_refusal refusal = { 77, 77 };

    must(bpfagent_check(CODE, sizeof CODE, &refusal), BPFAGENT_OK, "check");
    wants(bpfagent_check(CODE, 24, &refusal), BPFAGENT_REFUSED, "check of code without exit");
    must((uint32_t)(refusal.slot * 100 + refusal.reason), 214, "falls off at slot 2");
    wants(bpfagent_assemble((const uint8_t *)line, sizeof line - 1, made, sizeof made, &count, &told), BPFAGENT_REFUSED, "assemble");
    must(told.line == 2 && told.reason == BPFAGENT_WRONG_OPERAND && count == 77, 1, "line 2: Operand");
    wants(bpfagent_assemble((const uint8_t *)"\xff", 1, made, sizeof made, &count, &told), BPFAGENT_REFUSED, "assemble a byte above 127");
    must((uint32_t)(told.line * 10 + told.reason), 11, "line 1: Word");
    must(bpfagent_assemble((const uint8_t *)line, 5, made, 4, &count, &told), BPFAGENT_OK, "assemble into 4 bytes");
    must(count == 8 && made[0] == 0x95, 1, "how many bytes the code has");
    must(bpfagent_text(CODE, sizeof CODE, 0, text, sizeof text, &count), BPFAGENT_OK, "text");
    must(count == 14 && !memcmp(text, "ldxdw r0, [r1]", 14), 1, "its text");
    wants(bpfagent_text(CODE, sizeof CODE, 4, text, sizeof text, &count), BPFAGENT_NOSLOT, "text after the end");
    wants(bpfagent_text(CODE, 24, 0, text, sizeof text, &count), BPFAGENT_REFUSED, "text of code without exit");
    must(!strcmp(bpfagent_name(BPFAGENT_BAD), "BPFAGENT_BAD") && !strcmp(bpfagent_name(29), "unknown"), 1, "names");
    must(bpfagent_version() == BPFAGENT_VERSION, 1, "version");
}

/* The names of numbers, and numbers without one. */
static void names(void)
{
    uint8_t text[16] = { 0 };
    size_t count = 77;

    wants(bpfagent_state_name(BPFAGENT_RUNNING, BPFAGENT_EXIT, text, sizeof text, &count), BPFAGENT_BAD, "the name of a machine that runs and has a stop");
    wants(bpfagent_state_name(BPFAGENT_IS_STOPPED, BPFAGENT_GOES_ON, text, sizeof text, &count), BPFAGENT_BAD, "the name of no stop");
    wants(bpfagent_state_name(3, BPFAGENT_EXIT, text, sizeof text, &count), BPFAGENT_BAD, "the name of state 3");
    wants(bpfagent_place_name(4, text, sizeof text, &count), BPFAGENT_BAD, "the name of place 4");
    wants(bpfagent_reason_name(0, text, sizeof text, &count), BPFAGENT_BAD, "the name of reason 0");
    wants(bpfagent_wrong_name(8, text, sizeof text, &count), BPFAGENT_BAD, "the name of wrong 8");
    must(count == 77 && text[0] == 0, 1, "nothing was written");
    must(bpfagent_state_name(BPFAGENT_IS_PAUSED, BPFAGENT_GOES_ON, text, sizeof text, &count), BPFAGENT_OK, "the name of a state");
    must(count == 6 && !memcmp(text, "paused", 6), 1, "paused");
    must(bpfagent_state_name(BPFAGENT_IS_STOPPED, BPFAGENT_NOT_GRANTED, text, sizeof text, &count), BPFAGENT_OK, "the name of a stop");
    must(count == 10 && !memcmp(text, "notgranted", 10), 1, "notgranted");
    must(bpfagent_place_name(BPFAGENT_RETURNING, text, 3, &count), BPFAGENT_OK, "the name of a place, into 3 bytes");
    must(count == 9 && !memcmp(text, "retgra", 6), 1, "ret");
    must(bpfagent_reason_name(14, text, sizeof text, &count), BPFAGENT_OK, "the name of a reason");
    must(count == 8 && !memcmp(text, "FallsOff", 8), 1, "FallsOff");
    must(bpfagent_wrong_name(BPFAGENT_WRONG_TWICE_LABEL, text, sizeof text, &count), BPFAGENT_OK, "the name of what is wrong");
    must(count == 10 && !memcmp(text, "TwiceLabel", 10), 1, "TwiceLabel");
}

static void code(bpfagent *a, size_t *machine)
{
    static uint8_t long_code[32776];
    bpfagent_refusal refusal = { 77, 77 };
    bpfagent_grant grants[17] = { { 0, 0 } };

    wants(ship(a, CODE, 0, 0, machine, &refusal), BPFAGENT_REFUSED, "no code");
    must(refusal.reason, 8, "empty");
    wants(ship(a, long_code, sizeof long_code, 0, machine, &refusal), BPFAGENT_REFUSED, "4,097 slots");
    must(refusal.reason, 9, "too long");
    wants(ship(a, CODE, 24, 0, machine, &refusal), BPFAGENT_REFUSED, "no exit");
    must(refusal.reason, 14, "falls off");
    must((uint32_t)refusal.slot, 2, "its slot");
    wants(bpfagent_ship_granted(a, CODE, sizeof CODE, 9, 0, 0, 0, 0, 0, grants, 17, machine, &refusal), BPFAGENT_BAD, "17 grants");
    wants(bpfagent_ship_granted(a, CODE, sizeof CODE, 9, 0, 0, 0, 0, 0, grants, 1, machine, &refusal), BPFAGENT_BAD, "a grant of object 0");
    grants[0].object = 1;
    wants(bpfagent_ship_granted(a, CODE, 24, 9, 0, 0, 0, 0, 0, grants, 1, machine, &refusal), BPFAGENT_REFUSED, "no exit");
    grants[0].object = 1025;
    wants(bpfagent_ship_granted(a, CODE, sizeof CODE, 9, 0, 0, 0, 0, 0, grants, 1, machine, &refusal), BPFAGENT_BAD, "a grant of object 1025");
}

/* A machine that there isn't. */
static void no_machine(bpfagent *agent, size_t machine)
{
    uint8_t bytes[8];
    uint64_t values[1];
    struct machine_arguments with = { .range = 1, .steps = 1, .bytes = bytes, .length = 8, .values = values, .room = 1 };

    mark(&with);
#define NO_MACHINE(name, memory, arguments, right, answers) wants(bpfagent_##name arguments, BPFAGENT_NONE, #name);
    MACHINE_CALLS(NO_MACHINE)
    wants(bpfagent_stack(agent, machine, 0, bytes, 0), BPFAGENT_NONE, "no bytes of a stack");
    wants(bpfagent_stack(agent, machine, 4096, bytes, 8), BPFAGENT_NONE, "stack past the end");
    must(is_marked(&with), 1, "nothing was written");
}

/* Every call on a machine that was just shipped, in the order of the table. */
static void right(void)
{
    bpfagent a = BPFAGENT_INIT, *agent = &a;
    uint32_t object = 0;
    size_t machine = 0;
    bpfagent_refusal refusal;
    uint8_t bytes[256];
    uint64_t values[1];
    struct machine_arguments with = { .range = 8, .steps = 100, .bytes = bytes, .length = 256, .values = values, .room = 1 };

    must(bpfagent_new(agent, 1000), BPFAGENT_OK, "new");
    must(bpfagent_make(agent, 8, &object), BPFAGENT_OK, "make");
    must(ship(agent, CODE, sizeof CODE, bpfagent_address(object, 0), &machine, &refusal), BPFAGENT_OK, "ship");
#define RIGHT(name, memory, arguments, right, answers) must(bpfagent_##name arguments, BPFAGENT_##right, #name);
    MACHINE_CALLS(RIGHT)
    bpfagent_delete(agent);
}

/* What is shown of a machine at its start, and what is set on it. */
static void shown(bpfagent *a, size_t m, uint32_t object)
{
    static uint8_t bytes[5000];
    size_t count = 0;

    bytes[4096] = 77;
    must(bpfagent_stack(a, m, 0, bytes, 4096), BPFAGENT_OK, "stack");
    must(bpfagent_stack(a, m, 4096, bytes, 0), BPFAGENT_OK, "no bytes from 4096");
    wants(bpfagent_stack(a, m, 4090, bytes, 7), BPFAGENT_OUTSIDE, "stack 7 from 4090");
    wants(bpfagent_stack(a, m, UINT32_MAX, bytes, 1), BPFAGENT_OUTSIDE, "stack far off");
    wants(bpfagent_stack(a, m, 0, bytes, 4097), BPFAGENT_OUTSIDE, "stack 4097");
    wants(bpfagent_stack(a, m, 0, bytes, sizeof bytes), BPFAGENT_OUTSIDE, "stack 5000");
    must(bytes[4096], 77, "what stood there");
    wants(bpfagent_line(a, m, 9, bytes, sizeof bytes, &count), BPFAGENT_NOSLOT, "line 9");
    wants(bpfagent_break(a, m, 4), BPFAGENT_NOSLOT, "break after the end");
    wants(bpfagent_unbreak(a, m, 0), BPFAGENT_NOSLOT, "unbreak where none is");
    wants(bpfagent_watch(a, m, bpfagent_address(object, UINT32_MAX), 2), BPFAGENT_OUTSIDE, "watch past the end");
    wants(bpfagent_unwatch(a, m, 0, 1), BPFAGENT_NOWATCH, "unwatch");
    for (unsigned k = 0; k < 8; k++)
        must(bpfagent_watch(a, m, k, 1), BPFAGENT_OK, "watch");
    wants(bpfagent_watch(a, m, 8, 1), BPFAGENT_FULL, "watch 9");
    for (unsigned k = 0; k < 8; k++)
        must(bpfagent_unwatch(a, m, k, 1), BPFAGENT_OK, "unwatch");
    wants(bpfagent_resume(a, m), BPFAGENT_NOTPAUSED, "resume");
}

/* A machine that loads, by each way to step it. */
static void loads(bpfagent *a, size_t m, uint32_t object)
{
    bpfagent_end end = { 0, 0, 0 };
    bpfagent_registers registers;
    uint64_t values[1];
    uint8_t text[256];
    size_t count = 0;

    must(bpfagent_leave(a, object), BPFAGENT_OK, "leave");
    wants(bpfagent_step(a, m, &end), BPFAGENT_WAITING, "step");
    wants(bpfagent_one(a, m, &end), BPFAGENT_WAITING, "one");
    wants(bpfagent_run(a, m, 9, &end), BPFAGENT_WAITING, "run");
    must(end.ran == 0 && end.value == object, 1, "it waits for the object");
    must(bpfagent_left(a, object), BPFAGENT_OK, "left");
    must(bpfagent_return(a, object), BPFAGENT_OK, "return");
    must(bpfagent_returned(a, object), BPFAGENT_OK, "returned");
    must(bpfagent_run(a, m, 0, &end), BPFAGENT_RAN, "run of no step");
    must(bpfagent_step(a, m, &end), BPFAGENT_RAN, "step");
    must((uint32_t)end.value, 1, "its slot");
    wants(bpfagent_leave(a, object), BPFAGENT_SCOPED, "leave of one in a scope");
    wants(bpfagent_free(a, object), BPFAGENT_SCOPED, "free of one in a scope");
    must(bpfagent_break(a, m, 3), BPFAGENT_OK, "break");
    wants(bpfagent_run(a, m, 100, &end), BPFAGENT_PAUSED, "run to a breakpoint");
    must((uint32_t)(end.ran * 10 + end.value), 23, "two steps, at slot 3");
    wants(bpfagent_step(a, m, &end), BPFAGENT_PAUSED, "step of one that is paused");
    must(bpfagent_resume(a, m), BPFAGENT_OK, "resume");
    must(bpfagent_unbreak(a, m, 3), BPFAGENT_OK, "unbreak");
    must(bpfagent_run(a, m, 100, &end), BPFAGENT_STOPPED, "run");
    must(end.stop, BPFAGENT_EXIT, "exit");
    must(bpfagent_step(a, m, &end), BPFAGENT_STOPPED, "step of one that is stopped");
    must(bpfagent_regs(a, m, &registers), BPFAGENT_OK, "regs");
    must((uint32_t)(registers.state * 1000 + registers.stop * 100 + registers.slot * 10 + (100 - registers.fuel)), 2134, "what the machine is");
    must(bpfagent_out(a, m, values, 1, &count), BPFAGENT_OK, "out");
    must((uint32_t)count, 1, "one value");
    must(bpfagent_line(a, m, 3, text, sizeof text, &count), BPFAGENT_OK, "line");
    must(count == 4 && !memcmp(text, "exit", 4), 1, "its text");
}

/* A machine that stores 7 into its stack and into the object, by each way to step it. */
static void stores(bpfagent *a, size_t m, uint32_t object)
{
    bpfagent_end end = { 0, 0, 0 };
    uint8_t bytes[9] = { 0 };

    must(bpfagent_watch(a, m, bpfagent_address(object, 7), 1), BPFAGENT_OK, "watch");
    must(bpfagent_one(a, m, &end), BPFAGENT_RAN, "one");
    must(bpfagent_resume(a, m), BPFAGENT_OK, "resume");
    must(bpfagent_stack(a, m, 4087, bytes, 9), BPFAGENT_OK, "stack");
    must(!memcmp(bytes, "\0\7\0\0\0\0\0\0", 9), 1, "the bytes of the stack");
    wants(bpfagent_run(a, m, 1, &end), BPFAGENT_HIT, "run to a hit");
    must((uint32_t)(end.ran * 10 + end.value), 2, "at slot 2");
    must(bpfagent_resume(a, m), BPFAGENT_OK, "resume");
    wants(bpfagent_step(a, m, &end), BPFAGENT_HIT, "step");
    wants(bpfagent_one(a, m, &end), BPFAGENT_HIT, "one");
    must(bpfagent_one(a, m, &end), BPFAGENT_STOPPED, "one");
}

static void machines(bpfagent *a, uint32_t object)
{
    static uint8_t many[18 * 8];
    size_t machine = 0, stored = 0;
    bpfagent_refusal refusal;
    bpfagent_end end;
    bpfagent_grant reads = { object, 0 };

    no_machine(a, 0);
    must(ship(a, CODE, sizeof CODE, bpfagent_address(object, 0), &machine, &refusal), BPFAGENT_OK, "ship");
    no_machine(a, machine + 1);
    no_machine(a, SIZE_MAX);
    shown(a, machine, object);
    loads(a, machine, object);
    must(ship(a, STORE, sizeof STORE, bpfagent_address(object, 0), &stored, &refusal), BPFAGENT_OK, "ship");
    stores(a, stored, object);
    must(bpfagent_ship_granted(a, STORE, sizeof STORE, 9, bpfagent_address(object, 0), 0, 0, 0, 0, &reads, 1, &stored, &refusal), BPFAGENT_OK, "ship_granted");
    wants(bpfagent_run(a, stored, 9, &end), BPFAGENT_STOPPED, "a write that wasn't granted");
    must(end.stop, BPFAGENT_NOT_GRANTED, "not granted");
    for (unsigned k = 0; k < 17; k++)
        memcpy(many + 8 * k, CODE + 8, 8);
    memcpy(many + 17 * 8, CODE + 24, 8);
    must(ship(a, many, sizeof many, 0, &machine, &refusal), BPFAGENT_OK, "ship");
    for (uint32_t slot = 0; slot < 16; slot++)
        must(bpfagent_break(a, machine, slot), BPFAGENT_OK, "break");
    wants(bpfagent_break(a, machine, 16), BPFAGENT_FULL, "break 17");
    for (unsigned k = 4; k < 48; k++)
        must(ship(a, CODE, sizeof CODE, 0, &machine, &refusal), BPFAGENT_OK, "ship");
    wants(ship(a, CODE, sizeof CODE, 0, &machine, &refusal), BPFAGENT_FULL, "machine 49");
    wants(bpfagent_ship_granted(a, CODE, sizeof CODE, 9, 0, 0, 0, 0, 0, &reads, 1, &machine, &refusal), BPFAGENT_FULL, "machine 49");
}

int main(void)
{
    bpfagent agent = { 0 };
    uint32_t object = 0;
    size_t machine = 0;

    no_agent(&agent);
    must(bpfagent_new(&agent, 1000), BPFAGENT_OK, "new");
    objects(&agent, &object);
    no_object(&agent, 0);
    no_object(&agent, object + 1);
    no_object(&agent, UINT32_MAX);
    in_each_place(&agent, object);
    code(&agent, &machine);
    machines(&agent, object);
    right();
    bpfagent_delete(&agent);
    all_objects();
    keepers();
    texts();
    names();
    no_agent(&agent);
    printf("%u wrong calls were answered as the header says\n", wrong);
    return 0;
}
