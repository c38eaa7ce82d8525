// Sorts numbers by heap sort, the least first. Returns how many there are.
#include "bpfagent_program.h"

// Lets the number at `at` sink until no child is above it.
CALLED void sink(uint32_t *numbers, uint64_t at, uint64_t count)
{
    uint32_t number = numbers[at];

    for (uint64_t child; (child = 2 * at + 1) < count; at = child) {
        if (child + 1 < count && numbers[child + 1] > numbers[child])
            child++;
        if (numbers[child] <= number)
            break;
        numbers[at] = numbers[child];
    }
    numbers[at] = number;
}

uint64_t program(uint32_t *numbers, uint64_t count)
{
    for (uint64_t at = count / 2; at > 0; at--)
        sink(numbers, at - 1, count);
    for (uint64_t left = count; left > 1; left--) {
        uint32_t greatest = numbers[0];
        numbers[0] = numbers[left - 1];
        sink(numbers, 0, left - 1);
        numbers[left - 1] = greatest;
    }
    return count;
}
