// Pops so many numbers, or all where there are fewer, and emits them. Returns their sum.
#include "stack.h"

uint64_t program(struct stack *stack, uint64_t count)
{
    uint64_t sum = 0;

    for (uint64_t i = 0; i < count; i++) {
        uint64_t top, first, next;
        do {
            top = atomic_read(&stack->top);
            first = (uint32_t)top;
            if (first == 0)
                return sum;
            next = atomic_read(&stack->nodes[first - 1].next);
        } while (atomic_compare_exchange(&stack->top, top, changed(top, next)) != top);
        emit(stack->nodes[first - 1].value);
        sum += stack->nodes[first - 1].value;
    }
    return sum;
}
