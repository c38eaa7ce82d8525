// More than 4096 slots.
// check: slot 0: TooLong
#include "bpfagent_program.h"

uint64_t program(const uint64_t *numbers)
{
    uint64_t hash = 0;

#pragma clang loop unroll(full)
    for (int i = 0; i < 1500; i++)
        hash = (hash ^ numbers[i]) * 31;
    return hash;
}
