// Takes so many numbers from a queue, and waits while it is empty. Returns their sum.
//
// It polls, which takes a worker while it waits: do so only for what another machine gives soon. A program that waits for a
// client pauses instead: docs/REQUESTS.md.
#include "queue.h"

uint64_t program(struct queue *queue, uint64_t count)
{
    uint64_t places = places_of(queue), sum = 0;

    for (uint64_t i = 0; i < count; i++) {
        uint64_t taken = queue->taken;
        while (atomic_read(&queue->put) == taken)
            close_scopes();
        sum += atomic_read(&queue->places[taken % places]);
        atomic_write(&queue->taken, taken + 1);
    }
    return sum;
}
