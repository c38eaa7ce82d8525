// Frees the bits of a bitmap from `first` on, so many. Returns how many of them were taken.
#include "bpfagent_program.h"

uint64_t program(uint64_t *bitmap, uint64_t first, uint64_t count)
{
    uint64_t freed = 0;

    for (uint64_t bit = first; bit < first + count; bit++) {
        uint64_t mask = (uint64_t)1 << bit % 64;
        freed += (atomic_and(&bitmap[bit / 64], ~mask) & mask) != 0;
    }
    return freed;
}
