// Moves an amount from one account to another if it is there, and returns whether it was.
#include "bpfagent_program.h"

uint64_t program(uint64_t *from, uint64_t *to, uint64_t amount)
{
    if (*from < amount)
        return 0;
    *from -= amount;
    *to += amount;
    return 1;
}
