// Or, and, xor and exchange on 32 bits, for a processor before v3.
// flags: -mcpu=v2
// clang: (?i)unsupported atomic operations?, please use 64 bit version
#include "bpfagent_program.h"

uint64_t program(uint32_t *flags)
{
    atomic_or(flags, 1);
    return 0;
}
