// An end that the compiler takes for one that is never reached.
// ship: refused 1 FallsOff
#include "bpfagent_program.h"

uint64_t program(uint64_t *place)
{
    atomic_write(place, 1);
    __builtin_unreachable();
}
