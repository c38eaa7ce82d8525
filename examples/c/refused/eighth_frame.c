// Stack space in the eighth nested call: each call lowers R10 by 512, and there are 4096 bytes.
// run 7: stopped 1 outside
#include "bpfagent_program.h"

CALLED uint64_t sum(uint64_t n)
{
    volatile uint64_t kept = n;
    return n == 0 ? 0 : sum(n - 1) + kept;
}

uint64_t program(uint64_t n)
{
    return sum(n);
}
