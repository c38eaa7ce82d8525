// Joins two tables, each in an object: for each row of the right one, the row of the left one with its key.
#include "bpfagent_program.h"

struct row {
    uint32_t key; // not 0, and in the left table once
    uint32_t value;
};

struct joined {
    uint32_t key, left, right;
};

// The place of a key in a table of so many places, with linear probing: its own, or the empty one where it belongs.
static uint64_t place_of(const struct row *table, uint64_t places, uint32_t key)
{
    uint64_t place = key * 0x9e3779b9u % places;

    while (table[place].key != 0 && table[place].key != key)
        place = (place + 1) % places;
    return place;
}

static uint64_t rows_of(const struct row *table)
{
    return object_length(object_of(table)) / sizeof(struct row);
}

// `index` is an object of zeros with more places than the left table has rows. Returns the number of joined rows.
uint64_t program(const struct row *left, const struct row *right, struct row *index, struct joined *joined)
{
    uint64_t places = rows_of(index), room = object_length(object_of(joined)) / sizeof *joined, count = 0;

    for (uint64_t i = 0, rows = rows_of(left); i < rows; i++)
        index[place_of(index, places, left[i].key)] = left[i];
    for (uint64_t i = 0, rows = rows_of(right); i < rows && count < room; i++) {
        struct row found = index[place_of(index, places, right[i].key)];
        if (found.key != 0) {
            joined[count].key = found.key;
            joined[count].left = found.value;
            joined[count++].right = right[i].value;
        }
    }
    return count;
}
