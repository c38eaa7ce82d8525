// So does one inside a function, with or without const.
// bpfagent-ship: slot 4 of program needs the address of .rodata: a program has no data of its own; put it into an object
#include "bpfagent_program.h"

uint64_t program(uint64_t month)
{
    uint8_t days[12] = {31, 28, 31, 30, 31, 30, 31, 31, 30, 31, 30, 31};

    return days[month % 12];
}
