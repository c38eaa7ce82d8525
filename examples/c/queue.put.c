// Puts the numbers from `first` on into a queue, and waits while it is full. Returns how many.
#include "queue.h"

uint64_t program(struct queue *queue, uint64_t first, uint64_t count)
{
    uint64_t places = places_of(queue);

    for (uint64_t i = 0; i < count; i++) {
        uint64_t put = queue->put;
        while (put - atomic_read(&queue->taken) == places)
            close_scopes();
        atomic_write(&queue->places[put % places], first + i);
        atomic_write(&queue->put, put + 1);
    }
    return count;
}
