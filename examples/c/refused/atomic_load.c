// An atomic load or store by C's own names; bpfagent_program.h has atomic_read and atomic_write.
// clang: Cannot select: .*AtomicLoad<
#include "bpfagent_program.h"

uint64_t program(uint64_t *counter)
{
    return __atomic_load_n(counter, __ATOMIC_SEQ_CST);
}
