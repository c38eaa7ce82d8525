#include "native.h"
uint64_t program(uint64_t n)
{
    volatile uint64_t sum = 0;
    {
        volatile uint64_t a = n;
        sum += a; // break
    }
again:
    sum += 2;
    if (sum < 8)
        goto again;
    {
        volatile uint64_t b = sum;
        while (1) {
            b += 3;
            if (b > 12)
                break;
        }
        sum += b;
    }
    return sum;
}
MAIN(3)
