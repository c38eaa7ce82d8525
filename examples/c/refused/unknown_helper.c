// A helper that bpfagent hasn't.
// ship: refused 0 Helper
#include "bpfagent_program.h"

static uint64_t (*const fifth)(void) = (void *)5;

uint64_t program(void)
{
    return fifth();
}
