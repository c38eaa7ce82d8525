// Raises a number to the greatest of a row of numbers. Any number of machines may do so at once.
#include "bpfagent_program.h"

uint64_t program(uint64_t *maximum, const uint32_t *numbers, uint64_t count)
{
    for (uint64_t i = 0; i < count; i++) {
        uint64_t seen = atomic_read(maximum);
        while (numbers[i] > seen) {
            uint64_t old = atomic_compare_exchange(maximum, seen, numbers[i]);
            if (old == seen)
                break;
            seen = old;
        }
    }
    return count;
}
