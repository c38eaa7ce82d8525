// More than 512 bytes of stack in one function.
// clang: BPF stack limit (of 512 bytes )?is exceeded
#include "bpfagent_program.h"

uint64_t program(uint64_t number)
{
    volatile uint8_t buffer[600];

    for (uint64_t i = 0; i < sizeof buffer; i++)
        buffer[i] = number;
    return buffer[number % sizeof buffer];
}
