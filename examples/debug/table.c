// Looks a key up in a table that an object holds, twice; for the sessions of docs/DEBUGGING.md.
#include "bpfagent_program.h"

struct pair {
    uint32_t key, value;
};

struct table {
    uint64_t count;
    struct pair pairs[4];
};

static uint64_t find(const struct table *table, uint32_t key)
{
    for (uint64_t i = 0; i < table->count; i++)
        if (table->pairs[i].key == key)
            return table->pairs[i].value;
    return 0;
}

uint64_t program(struct table *table, uint32_t key)
{
    uint64_t sum = find(table, key);
    table->count = 1;
    sum += find(table, key + 1);
    return sum;
}
