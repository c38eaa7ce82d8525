// A function of another file.
// bpfagent-ship: slot 0 of program calls other, which this file doesn't define
// run: stopped 1 depth
#include "bpfagent_program.h"

uint64_t other(uint64_t number);

uint64_t program(uint64_t number)
{
    return other(number) + 1;
}
