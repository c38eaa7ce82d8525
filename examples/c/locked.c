// Moves an amount between two accounts, so many times, under a lock. Returns how often there was enough to move. The
// object may be taken away whenever the machine isn't inside.
#include "bpfagent_program.h"

struct accounts {
    uint64_t lock; // the number of the machine that is inside, or 0
    uint64_t balance[2];
};

uint64_t program(struct accounts *accounts, uint64_t from, uint64_t amount, uint64_t times)
{
    uint64_t own = machine_number(), moved = 0;

    for (uint64_t i = 0; i < times; i++) {
        while (atomic_compare_exchange(&accounts->lock, 0, own) != 0)
            close_scopes();
        if (accounts->balance[from] >= amount) {
            accounts->balance[from] -= amount;
            accounts->balance[1 - from] += amount;
            moved++;
        }
        atomic_exchange(&accounts->lock, 0);
        close_scopes();
    }
    return moved;
}
