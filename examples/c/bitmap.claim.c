// Claims free bits of a bitmap, each for one machine alone, and emits their numbers. Returns how many it got.
#include "bpfagent_program.h"

uint64_t program(uint64_t *bitmap, uint64_t bits, uint64_t wanted)
{
    uint64_t claimed = 0;

    for (uint64_t bit = 0; bit < bits && claimed < wanted; bit++) {
        uint64_t mask = (uint64_t)1 << bit % 64;
        if (atomic_or(&bitmap[bit / 64], mask) & mask)
            continue;
        emit(bit);
        claimed++;
    }
    return claimed;
}
