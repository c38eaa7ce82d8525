// Counts bytes by their high four bits, in sixteen counts of 32 bits. Each machine can take a part of the data.
#include "bpfagent_program.h"

uint64_t program(uint32_t *counts, const uint8_t *data, uint64_t from, uint64_t to)
{
    for (uint64_t i = from; i < to; i++)
        atomic_add(&counts[data[i] >> 4], 1);
    return to - from;
}
