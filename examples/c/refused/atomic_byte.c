// Atomic operations on one or two bytes.
// clang: (?i)unsupported atomic operations?, please use 32/64 bit version
#include "bpfagent_program.h"

uint64_t program(uint8_t *counter)
{
    return atomic_add(counter, 1);
}
