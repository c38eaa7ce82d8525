#include "native.h"
INLINED void more(volatile uint64_t *cell, uint64_t times)
{
    while (times) {
        *cell += 1;
        times--;
    }
}
uint64_t program(uint64_t n)
{
    volatile uint64_t cell = 1;
    more(&cell, n);
    cell += 10; // break
    more(&cell, cell & 3);
    return cell;
}
MAIN(3)
