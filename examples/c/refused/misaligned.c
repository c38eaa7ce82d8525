// An atomic operation at no multiple of its size.
// run 0x100000004: stopped 1 misaligned
#include "bpfagent_program.h"

uint64_t program(uint64_t *counter)
{
    return atomic_add(counter, 1);
}
