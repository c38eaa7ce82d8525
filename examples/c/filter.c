// Copies the records of an object that cost at least so much and were sold before a day, and returns how many there are.
#include "bpfagent_program.h"

struct record {
    uint32_t number;
    uint32_t price;
    uint64_t day;
};

static int is_wanted(const struct record *record, uint64_t price, uint64_t day)
{
    return record->price >= price && record->day < day;
}

uint64_t program(const struct record *records, struct record *wanted, uint64_t price, uint64_t day)
{
    uint64_t count = object_length(object_of(records)) / sizeof *records;
    uint64_t room = object_length(object_of(wanted)) / sizeof *wanted, found = 0;

    for (uint64_t i = 0; i < count && found < room; i++)
        if (is_wanted(&records[i], price, day))
            wanted[found++] = records[i];
    return found;
}
