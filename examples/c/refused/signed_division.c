// Division of signed numbers, for a processor before v4 (which later versions of clang know).
// clang: (?i)unsupport(ed)? signed division
#include "bpfagent_program.h"

int64_t program(int64_t dividend, int64_t divisor)
{
    return dividend / divisor;
}
