// Adds up the values of a list.
#include "list.h"

uint64_t program(const struct node *node)
{
    uint64_t sum = 0;

    for (; node != 0; node = node->next)
        sum += node->value;
    return sum;
}
