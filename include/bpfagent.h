/* bpfagent: objects that move between memory and a far store, and small programs (RFC 9669) that run beside them.

   This is the manual of the library. docs/EMBEDDING.md shows how to build and link it, docs/PROTOCOL.md says more of each
   command. A call does what the command of the same name does, and answers a number of enum bpfagent_reply.

   RULES. The library cannot test these, so the caller keeps them:
   - No pointer is null, even if a length is 0. Each leads to as much memory as the call says. No two pointers of one call lead
     to the same memory.
   - The handle holds zeros, or what one of these calls left in it. It may be moved in memory, but not copied.
   - bpfagent_returned_from: bytes of the length and the SHA-256 of an object are that object's bytes. See there.
   - malloc, realloc and free belong to one allocator, which aligns as C asks for.
   - No call is made from a signal handler, or in the forked child of a process with threads.

   LOCKING. An agent belongs to one thread at a time. The library takes no locks and has no thread of its own. Two agents share
   nothing, so two threads may use two agents without a lock. If several threads use one agent, hold one lock around each call,
   of every kind: bpfagent_get and bpfagent_place_of take the agent out of its handle for a moment, too. Hold the lock over two
   calls only if nothing may come between them. Nothing that moves an object needs that: between bpfagent_leave and
   bpfagent_left_into other calls may be made, and programs may run. bpfagent_check, bpfagent_assemble, bpfagent_text,
   bpfagent_version and those whose names end in _name use no agent. They may be called at any time, on any thread.

   MISUSE that the library can test has an answer:
   - no agent in the handle, as before bpfagent_new and after bpfagent_delete: BPFAGENT_NOAGENT. A second delete does nothing.
   - a number or a length that can't be: BPFAGENT_BAD, which is tested before BPFAGENT_NOAGENT. Only bpfagent_make,
     bpfagent_ship_granted, bpfagent_objects and the four whose names end in _name answer it.
   - no such machine or object: BPFAGENT_NONE. bpfagent_put and bpfagent_get answer BPFAGENT_OUTSIDE.
   - a move of an object that is in another place: BPFAGENT_IS_HERE, _IS_LEAVING, _IS_FAR or _IS_RETURNING.
   - bytes past the end: BPFAGENT_OUTSIDE. A buffer that is too small for an object: BPFAGENT_SHORT.
   - bytes that come back and are not those that were handed out: BPFAGENT_DAMAGED.

   MEMORY. Only the calls with NOMEM or FAULT_FAR in the table below take memory. If an allocation fails, the answer is
   BPFAGENT_NOMEM. bpfagent_returned and bpfagent_returned_from answer BPFAGENT_FAULT_FAR instead, and the object is far as before.
   Nothing is lost, and no call aborts.

   RESULTS. A call writes through its pointers only if it answers BPFAGENT_OK, or as its comment says.

   ANSWERS, without BPFAGENT_. A call that has an agent may also answer NOAGENT. enum bpfagent_reply says what each means.
      new, new_handing   OK NOMEM
      make               OK BAD FULL NOROOM NOMEM
      free, leave        OK NONE IS_LEAVING IS_FAR IS_RETURNING SCOPED
      put, get           OK OUTSIDE AWAY
      place_of           OK NONE
      objects            OK BAD
      left               OK NONE IS_HERE IS_FAR IS_RETURNING FAULT_HERE
      left_into          OK NONE IS_HERE IS_FAR IS_RETURNING SHORT
      return             OK NONE IS_HERE IS_LEAVING IS_RETURNING NOROOM
      returned           OK NONE IS_HERE IS_LEAVING IS_FAR FAULT_FAR
      returned_from      OK NONE IS_HERE IS_LEAVING IS_FAR FAULT_FAR DAMAGED
      forget             OK NONE IS_HERE IS_LEAVING IS_RETURNING
      ship               OK FULL REFUSED NOMEM
      ship_granted       OK BAD FULL REFUSED NOMEM
      step, run          RAN HIT WAITING PAUSED STOPPED NONE
      one                RAN HIT WAITING STOPPED NONE
      regs, out          OK NONE
      stack              OK NONE OUTSIDE
      line               OK NONE NOSLOT NOMEM
      break              OK NONE NOSLOT FULL
      unbreak            OK NONE NOSLOT
      watch              OK NONE OUTSIDE FULL
      unwatch            OK NONE NOWATCH
      resume             OK NONE NOTPAUSED
      check, assemble    OK REFUSED NOMEM
      text               OK REFUSED NOSLOT NOMEM
      state_name, place_name, reason_name, wrong_name   OK BAD */
#ifndef BPFAGENT_H
#define BPFAGENT_H
#include <stddef.h>
#include <stdint.h>
#ifdef __cplusplus
extern "C" {
#endif

/* The version of this header: 10,000 times the first part, 100 times the second, and the third. bpfagent_version() answers that
   of the library. */
#define BPFAGENT_VERSION 900
#define BPFAGENT_VERSION_TEXT "0.9.0"

/* A handle. Only these calls may write what is in it. Without an agent it is of zeros: bpfagent agent = BPFAGENT_INIT;
   It is an array, so that bpfagent agent = { 0 }; warns neither in C nor in C++. */
typedef struct bpfagent {
    uintptr_t private_words[2];
} bpfagent;

#define BPFAGENT_INIT { { 0, 0 } }

/* What a call answers; beside each the protocol's words. From BPFAGENT_NOMEM on nothing was done, except that after
   BPFAGENT_FAULT_HERE, BPFAGENT_FAULT_FAR and BPFAGENT_DAMAGED the object is in the place that they name. */
enum bpfagent_reply {
    BPFAGENT_OK = 0,            /* it was done */
    BPFAGENT_RAN = 1,           /* ran: an instruction was done; of bpfagent_run: as many as were asked for */
    BPFAGENT_HIT = 2,           /* hit: one was done that wrote a byte of a watched range, and the machine is paused */
    BPFAGENT_WAITING = 3,       /* waiting: the machine waits for an object */
    BPFAGENT_PAUSED = 4,        /* paused: the machine is paused, and nothing was done */
    BPFAGENT_STOPPED = 5,       /* stopped: see enum bpfagent_stop */
    BPFAGENT_NOMEM = 10,        /* nomem: an allocation failed */
    BPFAGENT_FULL = 11,         /* full: there are as many as there can be */
    BPFAGENT_NOROOM = 12,       /* noroom: the budget has no room for the object */
    BPFAGENT_OUTSIDE = 13,      /* outside: the bytes are not all within the object or the stack; the range ends past 2^32 */
    BPFAGENT_AWAY = 14,         /* away: the object is not here */
    BPFAGENT_IS_HERE = 15,      /* place n here: the command is not for an object in this place */
    BPFAGENT_IS_LEAVING = 16,   /* place n leaving */
    BPFAGENT_IS_FAR = 17,       /* place n far */
    BPFAGENT_IS_RETURNING = 18, /* place n returning */
    BPFAGENT_SCOPED = 19,       /* kept n scoped: a machine has the object in an open scope */
    BPFAGENT_FAULT_HERE = 20,   /* kept n fault here: the far store failed, and the object is here again */
    BPFAGENT_FAULT_FAR = 21,    /* kept n fault far: the same, and it is far again */
    BPFAGENT_NOSLOT = 22,       /* noslot: no instruction begins at the slot, or it has no breakpoint */
    BPFAGENT_NOWATCH = 23,      /* nowatch: the range is not watched */
    BPFAGENT_NOTPAUSED = 24,    /* notpaused: the machine is not paused */
    BPFAGENT_REFUSED = 25,      /* refused: the code is not valid, or the text is not assembly */
    BPFAGENT_NONE = 26,         /* none: there is no such machine, or no such object */
    BPFAGENT_DAMAGED = 27,      /* the bytes are not those that were handed out, and the object is far again */
    BPFAGENT_SHORT = 28,        /* the buffer has no room for the object */
    BPFAGENT_NOAGENT = 30,      /* there is no agent in the handle */
    BPFAGENT_BAD = 31           /* bad: a length or a number is outside its range */
};

/* Why a machine is stopped. */
enum bpfagent_stop {
    BPFAGENT_GOES_ON = 0,       /* it isn't */
    BPFAGENT_EXIT = 1,          /* the program ended */
    BPFAGENT_STOP_OUTSIDE = 2,  /* an access outside of an object */
    BPFAGENT_MISALIGNED = 3,    /* an atomic operation at an offset that is no multiple of its size */
    BPFAGENT_DEPTH = 4,         /* a ninth call */
    BPFAGENT_SPENT = 5,         /* no fuel is left */
    BPFAGENT_WORN = 6,          /* not answered by this library */
    BPFAGENT_NOT_GRANTED = 7    /* an access to an object that was not granted */
};

/* Whether a machine goes on. */
enum bpfagent_state { BPFAGENT_RUNNING = 0, BPFAGENT_IS_PAUSED = 1, BPFAGENT_IS_STOPPED = 2 };

/* Where an object is. */
enum bpfagent_place {
    BPFAGENT_HERE = 0,     /* it may be reached */
    BPFAGENT_LEAVING = 1,  /* its bytes are on their way to the far store */
    BPFAGENT_FAR = 2,      /* the far store has its bytes */
    BPFAGENT_RETURNING = 3 /* its bytes are on their way back */
};

/* Why a text is not assembly (docs/ASSEMBLY.md). */
enum bpfagent_wrong {
    BPFAGENT_WRONG_WORD = 1,        /* a byte begins no token, or no mnemonic stands where one has to */
    BPFAGENT_WRONG_OPERAND = 2,     /* the operands have no form of the mnemonic */
    BPFAGENT_WRONG_RANGE = 3,       /* a number is out of its range */
    BPFAGENT_WRONG_LABEL = 4,       /* a label stands nowhere */
    BPFAGENT_WRONG_TWICE_LABEL = 5, /* a label stands in two lines */
    BPFAGENT_WRONG_TOO_LONG = 6     /* more than 4,096 slots */
};

/* How steps ended. */
typedef struct bpfagent_end {
    uint64_t ran;   /* how many steps were answered BPFAGENT_RAN: neither a hit nor EXIT is among them */
    uint64_t value; /* BPFAGENT_WAITING: the object; BPFAGENT_STOPPED: R0 at BPFAGENT_EXIT, or 0; BPFAGENT_RAN of bpfagent_run: 0;
                       otherwise the slot where the machine is */
    uint32_t stop;  /* enum bpfagent_stop */
} bpfagent_end;

/* What a machine is. */
typedef struct bpfagent_registers {
    uint64_t registers[11]; /* R0 to R10 */
    uint64_t slot;          /* where the next instruction begins */
    uint64_t fuel;          /* how many instructions may still be done */
    uint32_t state;         /* enum bpfagent_state */
    uint32_t stop;          /* enum bpfagent_stop */
} bpfagent_registers;

/* Why code is refused: the slot, and the reason's number (docs/PROTOCOL.md, "Reasons of refusal"). */
typedef struct bpfagent_refusal {
    uint64_t slot;
    uint32_t reason;
} bpfagent_refusal;

/* Why a text is not assembly: the line, counted from 1, and the reason, of enum bpfagent_wrong. */
typedef struct bpfagent_wrong_line {
    uint64_t line;
    uint32_t reason;
} bpfagent_wrong_line;

/* An object that a machine may reach: to read it, and, where `writes` isn't 0, to write it. */
typedef struct bpfagent_grant {
    uint32_t object;
    uint32_t writes;
} bpfagent_grant;

/* What an agent keeps of bytes that it handed out, beside their length. */
typedef struct bpfagent_parcel {
    uint8_t digest[32]; /* their SHA-256 */
} bpfagent_parcel;

/* ---- agents */

/* An agent without machines and objects. Its objects that are not far have at most `budget` bytes. The library keeps the bytes of
   the others, in its own memory: use bpfagent_left and bpfagent_returned. An agent that the handle had is deleted. BPFAGENT_OK
   or BPFAGENT_NOMEM, which leaves the handle as it was. */
uint32_t bpfagent_new(bpfagent *agent, uint32_t budget);

/* The same, of an agent whose caller keeps the bytes of its far objects: use bpfagent_left_into and bpfagent_returned_from.
   bpfagent_left answers BPFAGENT_FAULT_HERE, except of an object that was only read since it came back: the bytes that were
   handed out before still stand for that one. */
uint32_t bpfagent_new_handing(bpfagent *agent, uint32_t budget);

/* Deletes the agent, if there is one. */
void bpfagent_delete(bpfagent *agent);

/* ---- objects */

/* An object of so many zero bytes, 1 to 65,536 (otherwise BPFAGENT_BAD), and its number. An agent has 1,024 in its life. */
uint32_t bpfagent_make(bpfagent *agent, uint64_t length, uint32_t *object);

/* Frees an object that is here, if no machine has it in scope (see bpfagent_leave). For one that is far, see bpfagent_forget. */
uint32_t bpfagent_free(bpfagent *agent, uint32_t object);

/* Write bytes into an object, and read them. Any length may be given; more than the object has is BPFAGENT_OUTSIDE. */
uint32_t bpfagent_put(bpfagent *agent, uint32_t object, uint32_t offset, const uint8_t *bytes, size_t length);
uint32_t bpfagent_get(bpfagent *agent, uint32_t object, uint32_t offset, uint8_t *bytes, size_t length);

/* Where an object is, of enum bpfagent_place, and how many bytes it has. */
uint32_t bpfagent_place_of(bpfagent *agent, uint32_t object, uint32_t *place, size_t *length);

/* The objects that are in a place (otherwise BPFAGENT_BAD), by rising numbers, and how many there are: at most 1,024. Of more than
   there is room for the first are written. */
uint32_t bpfagent_objects(bpfagent *agent, uint32_t place, uint32_t *objects, size_t room, size_t *count);

/* Moves. leave and left take an object to the far store, return and returned bring it back. A program that reaches the object
   in between waits (BPFAGENT_WAITING). Each move has two calls, so that the agent works on while bytes travel.

   bpfagent_leave answers BPFAGENT_SCOPED while a machine that isn't stopped has used the object in its open scope.
   bpfagent_return answers BPFAGENT_NOROOM if the budget has no room: then another object has to leave first. */
uint32_t bpfagent_leave(bpfagent *agent, uint32_t object);
uint32_t bpfagent_left(bpfagent *agent, uint32_t object);
uint32_t bpfagent_return(bpfagent *agent, uint32_t object);
uint32_t bpfagent_returned(bpfagent *agent, uint32_t object);

/* bpfagent_left, where the caller keeps the bytes. They are written from the object into `buffer`, which has `room` bytes; `length`
   tells how many they are, and `parcel` their SHA-256. After BPFAGENT_OK the agent keeps length and SHA-256 alone, and the
   object is far. BPFAGENT_SHORT: the object, in whatever place it is, has more bytes than `room`. Then nothing is done, and only
   `length` is written. 65,536 bytes are always enough. No fault comes of it.

   In an agent of bpfagent_new it may be called too. Such an object comes back by bpfagent_returned_from alone, unless the library
   still has its bytes: of an object that was only read since bpfagent_returned. */
uint32_t bpfagent_left_into(bpfagent *agent, uint32_t object, uint8_t *buffer, size_t room, size_t *length,
                            bpfagent_parcel *parcel);

/* bpfagent_returned, with the bytes that the caller kept. BPFAGENT_DAMAGED: length or SHA-256 differ from those of the bytes that
   were handed out, and the object is far, as it was before bpfagent_return. BPFAGENT_FAULT_FAR: an allocation failed.

   What is proved of an agent stands on one premise: bytes of this length and this SHA-256 are the bytes that were handed out. */
uint32_t bpfagent_returned_from(bpfagent *agent, uint32_t object, const uint8_t *bytes, size_t length);

/* Frees an object that is far, so that the caller may drop its bytes. */
uint32_t bpfagent_forget(bpfagent *agent, uint32_t object);

/* ---- machines */

/* A machine of raw code, with R1 to R5, which may do `fuel` instructions and reach every object, and its number. There are at most
   48 in the life of an agent. `refusal` is written where the answer is BPFAGENT_REFUSED. */
uint32_t bpfagent_ship(bpfagent *agent, const uint8_t *code, size_t length, uint64_t fuel, uint64_t r1, uint64_t r2, uint64_t r3,
                       uint64_t r4, uint64_t r5, size_t *machine, bpfagent_refusal *refusal);

/* The same, of a machine that may reach these objects alone: at most 16, each of a number from 1 to 1024 (otherwise
   BPFAGENT_BAD). */
uint32_t bpfagent_ship_granted(bpfagent *agent, const uint8_t *code, size_t length, uint64_t fuel, uint64_t r1, uint64_t r2,
                               uint64_t r3, uint64_t r4, uint64_t r5, const bpfagent_grant *granted, size_t count,
                               size_t *machine, bpfagent_refusal *refusal);

/* One step: it may pause in place of it (step), or is paused after it (one). `end` is written unless the answer is
   BPFAGENT_NONE or BPFAGENT_NOAGENT. */
uint32_t bpfagent_step(bpfagent *agent, size_t machine, bpfagent_end *end);
uint32_t bpfagent_one(bpfagent *agent, size_t machine, bpfagent_end *end);

/* At most n steps in one call, up to the first that isn't answered BPFAGENT_RAN. `end` as for one step. If n is 0, the
   answer is BPFAGENT_RAN. */
uint32_t bpfagent_run(bpfagent *agent, size_t machine, uint64_t n, bpfagent_end *end);

/* Registers, slot, fuel and state of a machine. */
uint32_t bpfagent_regs(bpfagent *agent, size_t machine, bpfagent_registers *registers);

/* The values that a machine has emitted, the oldest first, and how many there are: at most 64. Of more than there is room for
   the first are written. */
uint32_t bpfagent_out(bpfagent *agent, size_t machine, uint64_t *values, size_t room, size_t *count);

/* Bytes of the machine's stack, which has 4,096. Any length may be given; more than the stack has is BPFAGENT_OUTSIDE. */
uint32_t bpfagent_stack(bpfagent *agent, size_t machine, uint32_t offset, uint8_t *bytes, size_t length);

/* The instruction at a slot as assembly, without a line end or a 0 behind it, and how many bytes it has: at most 256. Of more than
   there is room for the first are written. */
uint32_t bpfagent_line(bpfagent *agent, size_t machine, uint32_t slot, uint8_t *text, size_t room, size_t *count);

/* ---- debugging: at most 16 breakpoints and 8 watched ranges a machine */

uint32_t bpfagent_break(bpfagent *agent, size_t machine, uint32_t slot);
uint32_t bpfagent_unbreak(bpfagent *agent, size_t machine, uint32_t slot);
uint32_t bpfagent_watch(bpfagent *agent, size_t machine, uint64_t address, uint32_t length);
uint32_t bpfagent_unwatch(bpfagent *agent, size_t machine, uint64_t address, uint32_t length);
uint32_t bpfagent_resume(bpfagent *agent, size_t machine);

/* ---- code and assembly, without an agent */

/* Whether raw code is valid: BPFAGENT_OK, BPFAGENT_REFUSED with the reason in `refusal`, or BPFAGENT_NOMEM. */
uint32_t bpfagent_check(const uint8_t *code, size_t length, bpfagent_refusal *refusal);

/* Assembly (docs/ASSEMBLY.md) into raw code, and how many bytes the code has: at most 32,768. Of more than there is room for the
   first are written. BPFAGENT_REFUSED: `wrong` tells the first line that is wrong. The text may have any bytes. */
uint32_t bpfagent_assemble(const uint8_t *text, size_t length, uint8_t *code, size_t room, size_t *count, bpfagent_wrong_line *wrong);

/* The instruction at a slot of raw code, as bpfagent_line shows it. BPFAGENT_REFUSED if the code is not valid, BPFAGENT_NOSLOT if
   no instruction begins at the slot. */
uint32_t bpfagent_text(const uint8_t *code, size_t length, uint32_t slot, uint8_t *text, size_t room, size_t *count);

/* ---- names, as the protocol writes them: without a 0 behind them, and how many bytes they have: at most 16. Of more than there is
   room for the first are written. BPFAGENT_BAD: the number has no name. */

/* Of a machine's state with its stop, as bpfagent_regs writes both: "run", "paused", or the name of the stop. The name of the stop
   that `end` has is that of BPFAGENT_IS_STOPPED with it. */
uint32_t bpfagent_state_name(uint32_t state, uint32_t stop, uint8_t *text, size_t room, size_t *count);

/* Of a place, of enum bpfagent_place. */
uint32_t bpfagent_place_name(uint32_t place, uint8_t *text, size_t room, size_t *count);

/* Of the reason for which code is refused, as bpfagent_refusal has it. */
uint32_t bpfagent_reason_name(uint32_t reason, uint8_t *text, size_t room, size_t *count);

/* Of the reason for which a text is not assembly, of enum bpfagent_wrong. */
uint32_t bpfagent_wrong_name(uint32_t wrong, uint8_t *text, size_t room, size_t *count);

/* The version of the library, as BPFAGENT_VERSION. */
uint32_t bpfagent_version(void);

/* The name of an answer, as "BPFAGENT_OK"; "unknown" for a number that is no answer. */
static inline const char *bpfagent_name(uint32_t reply)
{
    switch (reply) {
    case BPFAGENT_OK: return "BPFAGENT_OK";
    case BPFAGENT_RAN: return "BPFAGENT_RAN";
    case BPFAGENT_HIT: return "BPFAGENT_HIT";
    case BPFAGENT_WAITING: return "BPFAGENT_WAITING";
    case BPFAGENT_PAUSED: return "BPFAGENT_PAUSED";
    case BPFAGENT_STOPPED: return "BPFAGENT_STOPPED";
    case BPFAGENT_NOMEM: return "BPFAGENT_NOMEM";
    case BPFAGENT_FULL: return "BPFAGENT_FULL";
    case BPFAGENT_NOROOM: return "BPFAGENT_NOROOM";
    case BPFAGENT_OUTSIDE: return "BPFAGENT_OUTSIDE";
    case BPFAGENT_AWAY: return "BPFAGENT_AWAY";
    case BPFAGENT_IS_HERE: return "BPFAGENT_IS_HERE";
    case BPFAGENT_IS_LEAVING: return "BPFAGENT_IS_LEAVING";
    case BPFAGENT_IS_FAR: return "BPFAGENT_IS_FAR";
    case BPFAGENT_IS_RETURNING: return "BPFAGENT_IS_RETURNING";
    case BPFAGENT_SCOPED: return "BPFAGENT_SCOPED";
    case BPFAGENT_FAULT_HERE: return "BPFAGENT_FAULT_HERE";
    case BPFAGENT_FAULT_FAR: return "BPFAGENT_FAULT_FAR";
    case BPFAGENT_NOSLOT: return "BPFAGENT_NOSLOT";
    case BPFAGENT_NOWATCH: return "BPFAGENT_NOWATCH";
    case BPFAGENT_NOTPAUSED: return "BPFAGENT_NOTPAUSED";
    case BPFAGENT_REFUSED: return "BPFAGENT_REFUSED";
    case BPFAGENT_NONE: return "BPFAGENT_NONE";
    case BPFAGENT_DAMAGED: return "BPFAGENT_DAMAGED";
    case BPFAGENT_SHORT: return "BPFAGENT_SHORT";
    case BPFAGENT_NOAGENT: return "BPFAGENT_NOAGENT";
    case BPFAGENT_BAD: return "BPFAGENT_BAD";
    default: return "unknown";
    }
}

/* The address of a byte of an object, as programs have it. */
static inline uint64_t bpfagent_address(uint32_t object, uint32_t offset)
{
    return (uint64_t)object << 32 | offset;
}

#ifdef __cplusplus
}
#endif
#endif
