// A loop that nobody ends: it is bounded by its fuel.
// run 0x100000000: stopped 1 spent
#include "bpfagent_program.h"

uint64_t program(uint64_t *flag)
{
    while (atomic_read(flag) == 0)
        ;
    return 1;
}
