// A variable outside functions.
// bpfagent-ship: slot 0 of program needs the address of total in .bss: a program has no data of its own; put it into an object
#include "bpfagent_program.h"

static uint64_t total;

uint64_t program(uint64_t number)
{
    return total += number;
}
