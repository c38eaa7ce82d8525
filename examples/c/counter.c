// Adds 1 to a counter so many times. Any number of machines may do so at once, and no count is lost.
#include "bpfagent_program.h"

uint64_t program(uint64_t *counter, uint64_t times)
{
    for (uint64_t i = 0; i < times; i++)
        atomic_add(counter, 1);
    return times;
}
