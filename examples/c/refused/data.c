// Data that no code uses.
// bpfagent-ship: .rodata has 8 bytes, and a program has no data of its own; put it into an object
#include "bpfagent_program.h"

const uint64_t version = 7;

uint64_t program(void)
{
    return 0;
}
