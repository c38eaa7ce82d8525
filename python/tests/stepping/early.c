#include "native.h"
CALLED uint64_t found(volatile uint64_t *cells, uint64_t key)
{
    for (uint64_t i = 0; i < 4; i++) {
        if (cells[i] == key)
            return i; // break
        if (cells[i] > 40)
            continue;
        cells[i] += 10;
    }
    return 9;
}
uint64_t program(uint64_t n)
{
    volatile uint64_t cells[4] = {1, n, 5, 50};
    uint64_t sum = found(cells, 5);
    sum += found(cells, 99);
    return sum;
}
MAIN(3)
