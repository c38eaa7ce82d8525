/* Each allocation of a short conversation fails in turn: an answer is then that memory has run out, and nothing is lost. A call that takes
   no memory makes no allocation at all. It is linked with -Wl,--wrap=malloc,--wrap=realloc,--wrap=free. */
#include "common.h"
#include "machine_calls.h"

void *__real_malloc(size_t);
void *__real_realloc(void *, size_t);
void __real_free(void *);

/* How many allocations succeed before one fails, or less than 0 where none does; how many blocks are in use; how many there were. */
static long left = -1, live, made;

static int gives(void)
{
    made++;
    return left < 0 || left-- > 0;
}

void *__wrap_malloc(size_t n)
{
    void *p = gives() ? __real_malloc(n) : NULL;
    live += p != NULL;
    return p;
}

void *__wrap_realloc(void *q, size_t n)
{
    return gives() ? __real_realloc(q, n) : NULL;
}

void __wrap_free(void *p)
{
    live -= p != NULL;
    __real_free(p);
}

/* How many calls there were of each answer, and how many calls that take no memory took some. */
static unsigned answers[BPFAGENT_BAD + 1], loud;

static int note(uint32_t reply)
{
    answers[reply]++;
    return reply == BPFAGENT_OK;
}

/* The calls that take memory. */
#define NUMBERED_QUIET(name)
#define NUMBERED_TAKES(name) OF_##name,
#define NUMBERED(name, memory, arguments, right, answers) NUMBERED_##memory(name)
enum {
    OF_new, OF_new_handing, OF_make, OF_returned, OF_returned_from, OF_ship, OF_ship_granted, OF_assemble, OF_check, OF_text,
    MACHINE_CALLS(NUMBERED)
    CALLS
};

/* A call that may run out of memory. Its place in `ran_out` tells that it did, at least once. */
#define TAKES(name, call) took(OF_##name, #call, call)
static const char *names[CALLS];
static unsigned ran_out[CALLS];

static int took(unsigned number, const char *name, uint32_t reply)
{
    names[number] = name;
    ran_out[number] += reply == BPFAGENT_NOMEM || reply == BPFAGENT_FAULT_FAR;
    return note(reply);
}

/* A call that takes no memory. */
#define QUIET(call) (before = made, quiet(#call, call))
static long before;

static int quiet(const char *name, uint32_t reply)
{
    if (made != before) {
        fprintf(stderr, "%s takes memory\n", name);
        loud++;
    }
    return note(reply);
}

/* *(u64 *)r1 = 7; r0 = *(u64 *)r1; exit */
static const uint8_t CODE[] = { 0x7a, 1, 0, 0, 7, 0, 0, 0, 0x79, 0x10, 0, 0, 0, 0, 0, 0, 0x95, 0, 0, 0, 0, 0, 0, 0 };

#define MADE_QUIET(name, call) QUIET(call);
#define MADE_TAKES(name, call) TAKES(name, call);
#define MADE(name, memory, arguments, right, answers) MADE_##memory(name, bpfagent_##name arguments)

static void machine_of(bpfagent *agent, size_t machine)
{
    uint8_t bytes[4096];
    uint64_t values[64];
    struct machine_arguments with = { .slot = 1, .range = 8, .steps = 100, .bytes = bytes, .length = 4096, .values = values, .room = 64 };

    MACHINE_CALLS(MADE)
}

static void conversation(void)
{
    bpfagent agent = { 0 };
    uint32_t object = 0, place, listed[4];
    size_t machine = 0, length, count;
    bpfagent_refusal refusal;
    uint8_t bytes[256] = { 1 };

    if (!TAKES(new, bpfagent_new(&agent, 4096)))
        return;
    if (TAKES(make, bpfagent_make(&agent, 8, &object))) {
        QUIET(bpfagent_put(&agent, object, 0, bytes, 8));
        QUIET(bpfagent_get(&agent, object, 0, bytes, 8));
        QUIET(bpfagent_leave(&agent, object));
        QUIET(bpfagent_left(&agent, object));
        QUIET(bpfagent_return(&agent, object));
        TAKES(returned, bpfagent_returned(&agent, object));
        QUIET(bpfagent_place_of(&agent, object, &place, &length));
        QUIET(bpfagent_objects(&agent, place, listed, 4, &count));
    }
    if (TAKES(ship, bpfagent_ship(&agent, CODE, sizeof CODE, 10, bpfagent_address(object, 0), 0, 0, 0, 0, &machine, &refusal)))
        machine_of(&agent, machine);
    QUIET(bpfagent_free(&agent, object));
    QUIET((bpfagent_delete(&agent), BPFAGENT_OK));
}

/* Objects whose bytes the caller keeps. */
static void handed(void)
{
    bpfagent agent = BPFAGENT_INIT;
    bpfagent_parcel parcel;
    bpfagent_refusal refusal;
    uint8_t bytes[64] = { 1 };
    uint32_t object = 0;
    size_t length = 0, machine;

    if (!TAKES(new_handing, bpfagent_new_handing(&agent, 4096)))
        return;
    bpfagent_grant reads = { 1, 0 };
    TAKES(ship_granted, bpfagent_ship_granted(&agent, CODE, sizeof CODE, 10, 0, 0, 0, 0, 0, &reads, 1, &machine, &refusal));
    if (note(bpfagent_make(&agent, sizeof bytes, &object))) {
        QUIET(bpfagent_leave(&agent, object));
        QUIET(bpfagent_left_into(&agent, object, bytes, sizeof bytes, &length, &parcel));
        QUIET(bpfagent_return(&agent, object));
        TAKES(returned_from, bpfagent_returned_from(&agent, object, bytes, length));
        QUIET(bpfagent_leave(&agent, object));
        QUIET(bpfagent_left_into(&agent, object, bytes, sizeof bytes, &length, &parcel));
        QUIET(bpfagent_forget(&agent, object));
    }
    bpfagent_delete(&agent);
}

/* Code and assembly. */
static void texts(void)
{
    static const char text[] = "mov r0, 7\nexit\n";
    bpfagent_refusal refusal;
    bpfagent_wrong_line wrong;
    uint8_t bytes[64] = { 1 };
    size_t count = 0;

    TAKES(assemble, bpfagent_assemble((const uint8_t *)text, sizeof text - 1, bytes, sizeof bytes, &count, &wrong));
    TAKES(check, bpfagent_check(CODE, sizeof CODE, &refusal));
    TAKES(text, bpfagent_text(CODE, sizeof CODE, 1, bytes, sizeof bytes, &count));
    QUIET(bpfagent_state_name(BPFAGENT_IS_STOPPED, BPFAGENT_SPENT, bytes, sizeof bytes, &count));
    QUIET(bpfagent_place_name(BPFAGENT_FAR, bytes, sizeof bytes, &count));
    QUIET(bpfagent_reason_name(14, bytes, sizeof bytes, &count));
    QUIET(bpfagent_wrong_name(BPFAGENT_WRONG_WORD, bytes, sizeof bytes, &count));
}

static void all(void)
{
    conversation();
    handed();
    texts();
}

/* Whether a call of the conversations may have this answer. FAULT_FAR is of `returned`, after which the object is far: then the machine is
   WAITING for it, isn't paused, and the object IS_FAR where it leaves or is freed. NONE is of an object that wasn't made. */
static int is_known(uint32_t reply)
{
    return reply <= BPFAGENT_NOMEM || reply == BPFAGENT_FAULT_FAR || reply == BPFAGENT_IS_FAR || reply == BPFAGENT_NONE ||
           reply == BPFAGENT_NOTPAUSED;
}

int main(void)
{
    all();
    if (answers[BPFAGENT_NOMEM] || answers[BPFAGENT_FAULT_FAR]) {
        fprintf(stderr, "out of memory without a failed allocation\n");
        return 1;
    }
    long whole = made, bad = live != 0;
    for (long k = 0; k < whole; k++) {
        left = k;
        all();
        left = -1;
        bad += live != 0;
    }
    for (uint32_t reply = 0; reply <= BPFAGENT_BAD; reply++)
        bad += answers[reply] != 0 && !is_known(reply);
    for (unsigned k = 0; k < CALLS; k++) {
        bad += ran_out[k] == 0;
        if (ran_out[k] == 0)
            fprintf(stderr, "%s never ran out of memory\n", names[k]);
    }
    printf("%ld allocations fail in turn: %u calls ran out of memory, %u faults, %ld failures\n", whole,
           answers[BPFAGENT_NOMEM], answers[BPFAGENT_FAULT_FAR], bad + loud);
    return bad + loud != 0;
}
