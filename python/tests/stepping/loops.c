#include "native.h"
uint64_t program(uint64_t n)
{
    volatile uint64_t sum = 0;
    while (n) { // break
        sum += n;
        n--;
    }
    for (uint64_t i = 0; i < 3; i++) // break
        sum += i;
    do {
        sum += 7;
    } while (sum < 30); // break
    return sum;
}
MAIN(3)
