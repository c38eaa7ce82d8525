#include "native.h"
CALLED uint64_t sum_to(volatile uint64_t *cell, uint64_t n)
{
    *cell += 1;
    if (n == 0)
        return *cell; // break
    uint64_t rest = sum_to(cell, n - 1);
    *cell += rest;
    return rest + n;
}
uint64_t program(uint64_t n)
{
    volatile uint64_t cell = 0;
    uint64_t found = sum_to(&cell, n);
    return found + cell;
}
MAIN(3)
