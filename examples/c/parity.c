// Adds a row of words to their parity, bit by bit. Each machine can take a part of the row.
#include "bpfagent_program.h"

uint64_t program(uint64_t *parity, const uint64_t *words, uint64_t from, uint64_t to)
{
    uint64_t own = 0;

    for (uint64_t i = from; i < to; i++)
        own ^= words[i];
    atomic_xor(parity, own);
    return own;
}
