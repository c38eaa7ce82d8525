// A function that returns a struct, or takes a varying number of arguments.
// clang: functions with VarArgs or StructRet are not supported|aggregate returns are not supported
#include "bpfagent_program.h"

struct three {
    uint64_t a, b, c;
};

CALLED struct three three_of(uint64_t number)
{
    return (struct three){number, number + 1, number * number};
}

uint64_t program(uint64_t number)
{
    struct three found = three_of(number);
    return found.a + found.b * found.c;
}
