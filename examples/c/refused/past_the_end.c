// A place past the object's last byte.
// run 0x100000000: stopped 1 outside
#include "bpfagent_program.h"

uint64_t program(uint64_t *numbers)
{
    return numbers[2];
}
