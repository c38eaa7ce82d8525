/* Accesses of one thread, for bench/flat.c. */
#ifndef FLAT_OWN_H
#define FLAT_OWN_H
#include "flat.h"

/* Where bytes were found; null where there aren't so many. */
struct reached {
    uint8_t *bytes;
};

#define STOP_OF(found) FLAT_OUTSIDE

static inline struct reached reach(struct flat_machine *m, uint64_t address, uint64_t size)
{
    uint32_t entry = (uint32_t)(address >> 32) + 1;
    if (entry >= FLAT_TABLE || (uint64_t)(uint32_t)address + size > m->table[entry].length) return (struct reached){ NULL };
    return (struct reached){ m->table[entry].bytes + (uint32_t)address };
}

static inline void leave(struct reached found)
{
    (void)found;
}
#endif
