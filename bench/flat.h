/* A flat interpreter of the instruction table in C, without a proof: what the same work costs. It decodes once, and trusts
   that the code is valid. Each instruction is dispatched once, by a switch with a jump table, in one loop that keeps the
   registers; before each it tests the fuel, and it tests depth, alignment and bounds as the agent does.

   With -DFLAT_THREADED each arm ends with a jump to the next instruction's arm (labels as values, of gcc and clang). With -DFLAT_TAIL
   each arm is a function that ends with such a jump (`musttail`, of clang 13 and later). Whoever includes this says the same.

   With -DFLAT_SHARED threads share the objects, as crates/shared_objects has them share: an access takes the object's turn by one
   atomic operation on its word, and gives it back by another. */
#ifndef FLAT_H
#define FLAT_H
#include <stddef.h>
#include <stdint.h>

#if defined FLAT_THREADED || defined FLAT_TAIL
#define FLAT_ARMS
#endif

/* The last three are those of an access to a shared object: it is away, another has its turn, its stamp is the greatest. */
enum flat_stop { FLAT_EXIT, FLAT_OUTSIDE, FLAT_MISALIGNED, FLAT_DEPTH, FLAT_SPENT, FLAT_AWAY, FLAT_BUSY, FLAT_WORN };

/* The bytes of a number; length 0 where there is no object. A shared one has its word beside them, on one cache line. */
struct flat_object {
#ifdef FLAT_SHARED
    _Alignas(64) _Atomic uint64_t word;
#endif
    uint8_t *bytes;
    uint64_t length;
};

/* `row` is the opcode, or a number above 255 where several instructions share an opcode; `arm` is the place of what the row does.
   `jump` counts the slots from this one to the target. */
struct flat_instr {
#ifdef FLAT_ARMS
    const void *arm;
    int32_t jump;
#else
    int32_t row, jump;
#endif
    int64_t imm;
    int16_t offset;
    uint8_t dst, src;
};

struct flat_frame {
    uint32_t slot;
    uint64_t saved[5];
};

#ifdef FLAT_SHARED
/* Object n is entry n of the table. Entry 0 has no bytes. */
#define FLAT_TABLE 1025

/* The objects whose scopes a machine has open, the newest first, and the greatest stamp that it has seen. */
struct flat_seat {
    uint32_t window[4];
    uint64_t stamp;
};
#else
/* The stack is entry 0 of the table, number n is entry n + 1. */
#define FLAT_TABLE 1026
#endif

struct flat_machine {
    const struct flat_instr *code;
    uint64_t registers[11], fuel;
    uint32_t slot, depth;
    struct flat_frame frames[8];
#ifdef FLAT_SHARED
    struct flat_object *table;
    struct flat_seat seat;
#else
    struct flat_object table[FLAT_TABLE];
#endif
    uint8_t stack[4096];
};

/* Decodes `slots` slots of valid code into `code`. */
void flat_decode(struct flat_instr *code, const uint8_t *bytes, size_t slots);
/* A machine at the start of the code, with R1 as given, beside no object. */
void flat_start(struct flat_machine *m, const struct flat_instr *code, uint64_t fuel, uint64_t argument);
/* Goes on until the machine stops. One that is spent goes on where it is given more fuel. */
enum flat_stop flat_run(struct flat_machine *m);
#endif
