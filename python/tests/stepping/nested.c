#include "native.h"
INLINED uint64_t inner(volatile uint64_t *cell)
{
    *cell += 1;
    *cell *= 2;
    return *cell;
}
INLINED uint64_t outer(volatile uint64_t *cell)
{
    *cell += 4;
    uint64_t found = inner(cell);
    *cell += 8; // break
    return found;
}
CALLED uint64_t other(volatile uint64_t *cell)
{
    *cell += 16;
    return outer(cell) + 1;
}
uint64_t program(uint64_t n)
{
    volatile uint64_t cell = n;
    uint64_t sum = outer(&cell);
    sum += other(&cell);
    return sum;
}
MAIN(3)
