/* Each call on a machine, for the programs that make them all: `misuse`, `failing` and tests/hostile/library.c.

   It is a table so that a new call is added in one place, and no program can leave it out. tests/product/header.py checks that the table
   has each call on a machine, and that each program makes it. A test that fits one call alone is in the program, not here.

   A row is CALL(name, memory, arguments, right, answers). Each program defines its own CALL.
   - name: the call, without bpfagent_.
   - memory: TAKES if the call takes memory, otherwise QUIET. `failing` tests it.
   - arguments: all of them. The function that expands the table has variables `agent`, `machine` and `with`, a struct machine_arguments.
   - right: what the call answers on a machine that was just shipped, if the calls are made in this order. `misuse` tests it.
   - answers: all that the call may answer, if there is an agent. `library.c` tests it. */
#ifndef MACHINE_CALLS_H
#define MACHINE_CALLS_H
#include "bpfagent.h"

/* What the calls are given. They write to `bytes`, `values` and `told`, and nowhere else. */
struct machine_arguments {
    uint32_t slot;
    uint32_t offset;  /* in the stack */
    uint64_t address; /* of a watched range */
    uint32_t range;   /* its length */
    uint64_t steps;
    uint8_t *bytes;
    size_t length;
    uint64_t *values;
    size_t room;
    struct {
        size_t count;
        bpfagent_end end;
        bpfagent_registers registers;
    } told;
};

/* A set of answers, one bit each. */
#define SET(reply) (UINT64_C(1) << BPFAGENT_##reply)
#define STEPPED (SET(RAN) | SET(HIT) | SET(WAITING) | SET(STOPPED) | SET(NONE))

#define MACHINE_CALLS(CALL) \
    CALL(break, QUIET, (agent, machine, with.slot), OK, SET(OK) | SET(NONE) | SET(NOSLOT) | SET(FULL)) \
    CALL(unbreak, QUIET, (agent, machine, with.slot), OK, SET(OK) | SET(NONE) | SET(NOSLOT)) \
    CALL(watch, QUIET, (agent, machine, with.address, with.range), OK, SET(OK) | SET(NONE) | SET(OUTSIDE) | SET(FULL)) \
    CALL(unwatch, QUIET, (agent, machine, with.address, with.range), OK, SET(OK) | SET(NONE) | SET(NOWATCH)) \
    CALL(step, QUIET, (agent, machine, &with.told.end), RAN, STEPPED | SET(PAUSED)) \
    CALL(one, QUIET, (agent, machine, &with.told.end), RAN, STEPPED) \
    CALL(resume, QUIET, (agent, machine), OK, SET(OK) | SET(NONE) | SET(NOTPAUSED)) \
    CALL(run, QUIET, (agent, machine, with.steps, &with.told.end), STOPPED, STEPPED | SET(PAUSED)) \
    CALL(regs, QUIET, (agent, machine, &with.told.registers), OK, SET(OK) | SET(NONE)) \
    CALL(out, QUIET, (agent, machine, with.values, with.room, &with.told.count), OK, SET(OK) | SET(NONE)) \
    CALL(stack, QUIET, (agent, machine, with.offset, with.bytes, with.length), OK, SET(OK) | SET(NONE) | SET(OUTSIDE)) \
    CALL(line, TAKES, (agent, machine, with.slot, with.bytes, with.length, &with.told.count), OK, SET(OK) | SET(NONE) | SET(NOSLOT) | SET(NOMEM))
#endif
