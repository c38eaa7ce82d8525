// A trap, and so what sanitizers insert.
// clang: A call to built-in function 'abort' is not supported
#include "bpfagent_program.h"

uint64_t program(const uint64_t *number)
{
    if (*number == 0)
        __builtin_trap();
    return *number;
}
