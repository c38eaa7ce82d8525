// A function of more than five arguments.
// clang: defined with too many args|stack arguments are not supported
#include "bpfagent_program.h"

CALLED uint64_t sum(uint64_t a, uint64_t b, uint64_t c, uint64_t d, uint64_t e, uint64_t f)
{
    return a * b + c * d + e * f;
}

uint64_t program(uint64_t a, uint64_t b)
{
    return sum(a, b, a + 1, b + 1, a + 2, b + 2);
}
