// Several machines count the bytes of an object that have a value, into one counter without a lock. The last one to end
// emits the whole count.
#include "bpfagent_program.h"

struct tally {
    uint64_t count;
    uint64_t ended; // machines
};

// This machine looks at every `machines`th byte, from number `share` on. Returns how many it found.
uint64_t program(struct tally *tally, const uint8_t *bytes, uint64_t value, uint64_t share, uint64_t machines)
{
    uint64_t length = object_length(object_of(bytes)), found = 0;

    for (uint64_t i = share; i < length; i += machines)
        if (bytes[i] == value) {
            atomic_add(&tally->count, 1);
            found++;
        }
    if (atomic_add(&tally->ended, 1) == machines - 1)
        emit(atomic_read(&tally->count));
    return found;
}
