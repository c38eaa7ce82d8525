// The address of a function.
// bpfagent-ship: slot 2 of program needs the address of a function: only direct calls can be shipped
#include "bpfagent_program.h"

CALLED uint64_t twice(uint64_t number)
{
    return 2 * number;
}

CALLED uint64_t square(uint64_t number)
{
    return number * number;
}

uint64_t program(uint64_t number)
{
    uint64_t (*chosen)(uint64_t) = number & 1 ? twice : square;
    return chosen(number);
}
