// A call of an address.
// ship: refused 0 Opcode
#include "bpfagent_program.h"

uint64_t program(uint64_t (*chosen)(void))
{
    return chosen() + 1;
}
