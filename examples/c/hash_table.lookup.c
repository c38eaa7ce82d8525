// Writes the values of keys in place of the keys, 0 where there is none. Returns how many were found.
#include "hash_table.h"

static uint64_t value_of(const struct pair *table, uint64_t places, uint64_t key)
{
    for (uint64_t tried = 0; tried < places; tried++) {
        const struct pair *pair = &table[(hash(key) + tried) % places];
        uint64_t found = atomic_read(&pair->key);
        if (found == key)
            return atomic_read(&pair->value);
        if (found == 0)
            return 0;
    }
    return 0;
}

uint64_t program(const struct pair *table, uint64_t *keys, uint64_t count)
{
    uint64_t places = places_of(table), found = 0;

    for (uint64_t i = 0; i < count; i++) {
        keys[i] = value_of(table, places, keys[i]);
        found += keys[i] != 0;
    }
    return found;
}
