// Inserts pairs, or gives keys that are there their new value. Machines may insert at once. Returns how many of the
// pairs found a place.
#include "hash_table.h"

uint64_t program(struct pair *table, const struct pair *pairs, uint64_t count)
{
    uint64_t places = places_of(table), inserted = 0;

    for (uint64_t i = 0; i < count; i++) {
        for (uint64_t tried = 0; tried < places; tried++) {
            struct pair *pair = &table[(hash(pairs[i].key) + tried) % places];
            uint64_t old = atomic_compare_exchange(&pair->key, 0, pairs[i].key);
            if (old == 0 || old == pairs[i].key) {
                atomic_write(&pair->value, pairs[i].value);
                inserted++;
                break;
            }
        }
    }
    return inserted;
}
