// Turns a list round. Returns the address of what is its first node then.
#include "list.h"

uint64_t program(struct node *node)
{
    struct node *reversed = 0;

    while (node != 0) {
        struct node *next = node->next;
        node->next = reversed;
        reversed = node;
        node = next;
    }
    return (uint64_t)reversed;
}
