// The greatest numbers of an object, in falling order: as many as another object, which begins with zeros, has room for.
#include "bpfagent_program.h"

// Puts a number where it belongs among the greatest so far, and lets the least of them go.
static void place(uint64_t *greatest, uint64_t k, uint64_t number)
{
    uint64_t at = k - 1;

    for (; at > 0 && greatest[at - 1] < number; at--)
        greatest[at] = greatest[at - 1];
    greatest[at] = number;
}

// Returns the least of the greatest numbers.
uint64_t program(const uint64_t *numbers, uint64_t *greatest)
{
    uint64_t count = object_length(object_of(numbers)) / sizeof *numbers;
    uint64_t k = object_length(object_of(greatest)) / sizeof *greatest;

    if (k == 0)
        return 0;
    for (uint64_t i = 0; i < count; i++)
        if (numbers[i] > greatest[k - 1])
            place(greatest, k, numbers[i]);
    return greatest[k - 1];
}
