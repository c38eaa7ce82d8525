#include "native.h"
INLINED uint64_t twice(volatile uint64_t *cell)
{
    *cell += 1;
    *cell += 2; // break
    return *cell;
}
uint64_t program(uint64_t n)
{
    volatile uint64_t cell = n;
    uint64_t sum = twice(&cell);
    cell += 5;
    sum += twice(&cell);
    cell += sum;
    return cell;
}
MAIN(3)
