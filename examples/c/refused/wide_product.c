// A product of 128 bits.
// clang: A call to built-in function '__multi3' is not supported
#include "bpfagent_program.h"

uint64_t program(uint64_t left, uint64_t right)
{
    return (unsigned __int128)left * right >> 64;
}
