#include "native.h"
CALLED uint64_t third(volatile uint64_t *cell)
{
    *cell += 3;
    return *cell;
}
CALLED uint64_t second(volatile uint64_t *cell)
{
    uint64_t found = third(cell);
    *cell += 2;
    return found + third(cell); // break
}
uint64_t program(uint64_t n)
{
    volatile uint64_t cell = n;
    uint64_t sum = second(&cell);
    sum += second(&cell);
    return sum;
}
MAIN(3)
