// An atomic operation that BPF hasn't.
// clang: Cannot select: .*AtomicLoadNand<
#include "bpfagent_program.h"

#pragma clang diagnostic ignored "-Wsync-fetch-and-nand-semantics-changed"

uint64_t program(uint64_t *counter)
{
    return __sync_fetch_and_nand(counter, 1);
}
