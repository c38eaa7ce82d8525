// A fence; bpfagent_program.h has compiler_barrier.
// clang: Cannot select: .*AtomicFence
#include "bpfagent_program.h"

uint64_t program(uint64_t *counter)
{
    __sync_synchronize();
    return *counter;
}
