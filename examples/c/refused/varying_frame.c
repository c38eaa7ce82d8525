// An array on the stack whose length isn't known.
// clang: (?i)unsupported dynamic stack allocation
#include "bpfagent_program.h"

uint64_t program(uint64_t length)
{
    volatile uint8_t buffer[length];

    buffer[0] = 1;
    return buffer[0];
}
