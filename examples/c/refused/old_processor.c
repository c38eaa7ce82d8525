// An atomic operation on 32 bits whose old value is used, for a processor before v3.
// flags: -mcpu=v2
// clang: Invalid usage of the XADD return value
#include "bpfagent_program.h"

uint64_t program(uint32_t *counter)
{
    return atomic_add(counter, 1);
}
