#include "native.h"
CALLED uint64_t joined(volatile uint64_t *cell, uint64_t a, uint64_t b)
{
    *cell += a;
    return *cell + b;
}
uint64_t program(uint64_t n)
{
    volatile uint64_t cell = n;
    uint64_t sum = joined(&cell, // break
                          cell + 1,
                          cell + 2);
    sum += joined(&cell,
                  joined(&cell, 1, 2),
                  sum);
    return sum;
}
MAIN(3)
