// Adds the last byte of an object to a total after so many turns of a loop, of two instructions each.
#include "bpfagent_program.h"

uint64_t program(uint64_t *total, const uint8_t *object, uint64_t turns)
{
    for (; turns; turns--)
        compiler_barrier();
    uint8_t last = object[object_length(object_of(object)) - 1];
    *total += last;
    return last;
}
