// Pushes the numbers from `first` on. Returns how many found a node.
#include "stack.h"

uint64_t program(struct stack *stack, uint64_t first, uint64_t count)
{
    uint64_t room = (object_length(object_of(stack)) - sizeof *stack) / sizeof(struct node);

    for (uint64_t i = 0; i < count; i++) {
        uint64_t node = atomic_add(&stack->used, 1), top;
        if (node >= room)
            return i;
        stack->nodes[node].value = first + i;
        do {
            top = atomic_read(&stack->top);
            stack->nodes[node].next = (uint32_t)top;
        } while (atomic_compare_exchange(&stack->top, top, changed(top, node + 1)) != top);
    }
    return count;
}
