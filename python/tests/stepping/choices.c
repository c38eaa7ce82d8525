#include "native.h"
CALLED uint64_t chosen(volatile uint64_t *cell, uint64_t n)
{
    switch (n) {
    case 1:
        *cell += 5;
        break;
    case 2:
        *cell += 7; // break
        return 1;
    default:
        *cell += 9;
    }
    return 2;
}
uint64_t program(uint64_t n)
{
    volatile uint64_t cell = 0;
    cell += chosen(&cell, n);
    cell += chosen(&cell, n - 1);
    if (cell > 20)
        cell += chosen(&cell, 1);
    else
        cell += 1;
    return cell;
}
MAIN(3)
