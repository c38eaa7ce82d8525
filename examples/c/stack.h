// A stack in an object, which machines share without a lock.
#include "bpfagent_program.h"

struct node {
    uint64_t value;
    uint64_t next; // a node's number, counted from 1, or 0
};

struct stack {
    uint64_t top;  // low 32 bits: the first node's number; high 32 bits: how often it changed
    uint64_t used; // how many nodes were asked for
    struct node nodes[];
};

// The top with another first node. The count makes it differ from each earlier top with that node.
static inline uint64_t changed(uint64_t top, uint64_t first)
{
    return ((top >> 32) + 1) << 32 | first;
}
