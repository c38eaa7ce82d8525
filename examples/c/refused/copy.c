// memcpy of a length that isn't known; memset and memcmp alike.
// clang: A call to built-in function 'memcpy' is not supported
#include "bpfagent_program.h"

uint64_t program(uint8_t *to, const uint8_t *from, uint64_t length)
{
    __builtin_memcpy(to, from, length);
    return length;
}
