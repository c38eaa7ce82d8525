// A constant table would stand in a data section.
// bpfagent-ship: slot 1 of program needs the address of digits in .rodata.cst16: a program has no data of its own; put it into an object
// run 1: stopped 1 outside
#include "bpfagent_program.h"

static const uint8_t digits[16] = "0123456789abcdef";

uint64_t program(uint64_t number)
{
    return digits[number & 15];
}
