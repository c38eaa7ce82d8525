// A hash table in an object: places for pairs, and a pair stands in the first free place from its hash on.
#include "bpfagent_program.h"

struct pair {
    uint64_t key; // 0 where the place is free
    uint64_t value;
};

static inline uint64_t hash(uint64_t key)
{
    return key * 0x9e3779b97f4a7c15 >> 32;
}

static inline uint64_t places_of(const struct pair *table)
{
    return object_length(object_of(table)) / sizeof(struct pair);
}
