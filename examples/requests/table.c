// A table of keys and values. A request says what to do, the key and the value. Several machines may share the table.
#include "bpfagent_program.h"

// The object has a power of two of places. A pair stands in the first free place from its hash on.
struct pair {
    uint64_t key; // 0: the place is free
    uint64_t value;
};

enum operation { GET, PUT, ADD };
enum status { DONE = REQUEST_DONE, MISSING, FULL, WRONG };

static inline uint64_t hash(uint64_t key)
{
    return key * 0x9e3779b97f4a7c15 >> 32;
}

// The pair of a key, which gets a place if it is to be made; 0 if there is none.
static struct pair *pair_of(struct pair *table, uint64_t places, uint64_t key, int is_made)
{
    for (uint64_t tried = 0; tried < places; tried++) {
        struct pair *pair = &table[(hash(key) + tried) & (places - 1)];
        uint64_t found = atomic_read(&pair->key);
        // Of two machines that want the same place for different keys one finds it taken, and goes on.
        if (found == 0 && is_made && (found = atomic_compare_exchange(&pair->key, 0, key)) == 0)
            return pair;
        if (found == key)
            return pair;
        if (found == 0)
            return 0;
    }
    return 0;
}

uint64_t program(struct request *request, struct pair *table)
{
    uint64_t places = object_length(object_of(table)) / sizeof *table;

    for (;;) {
        uint64_t number = next_request(request), result = 0, status = DONE;
        uint64_t operation = request->arguments[0], key = request->arguments[1], value = request->arguments[2];
        struct pair *pair = key && operation <= ADD ? pair_of(table, places, key, operation != GET) : 0;
        if (key == 0 || operation > ADD)
            status = WRONG;
        else if (!pair)
            status = operation == GET ? MISSING : FULL;
        else if (operation == GET)
            result = atomic_read(&pair->value);
        else if (operation == PUT)
            result = atomic_exchange(&pair->value, value);
        else
            result = atomic_add(&pair->value, value) + value;
        answer_request(request, number, result, status);
    }
}
