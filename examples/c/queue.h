// A queue of a few places in an object, from one machine to another. Each side writes its own count alone, so it needs no lock.
#include "bpfagent_program.h"

struct queue {
    uint64_t put;   // how many values were put, by the one machine
    uint64_t taken; // how many were taken, by the other
    uint64_t places[];
};

static inline uint64_t places_of(const struct queue *queue)
{
    return (object_length(object_of(queue)) - sizeof *queue) / sizeof(uint64_t);
}
