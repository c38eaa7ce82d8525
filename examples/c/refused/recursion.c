// Calls deeper than eight.
// run 10: stopped 1 depth
#include "bpfagent_program.h"

CALLED uint64_t fibonacci(uint64_t n)
{
    return n < 2 ? n : fibonacci(n - 1) + fibonacci(n - 2);
}

uint64_t program(uint64_t n)
{
    return fibonacci(n);
}
