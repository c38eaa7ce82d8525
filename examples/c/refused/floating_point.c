// Floating point.
// clang: A call to built-in function '__muldf3' is not supported
#include "bpfagent_program.h"

uint64_t program(uint64_t number)
{
    return (double)number * 1.5;
}
