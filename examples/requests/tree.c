// Looks a key up in a B-tree. A request has the address of the root and the key. Both may be wrong, and so may the tree: an
// address is followed only if a node is there. Otherwise the machine would stop, for good.
#include "bpfagent_program.h"

#define KEYS 15
#define DEEPEST 16

struct node {
    uint64_t height; // 0: a leaf
    uint64_t count;  // how many keys it has, in rising order
    uint64_t keys[KEYS];
    uint64_t behind[KEYS]; // of a leaf the value of each key; otherwise the address of the node with keys from this one on
};

enum status { DONE = REQUEST_DONE, MISSING, WRONG_ADDRESS, WRONG_NODE };

// The last place whose key is at most this one; `count` if there is none.
static uint64_t place_of(const struct node *node, uint64_t count, uint64_t key)
{
    uint64_t low = 0, high = count;

    while (low < high) {
        uint64_t middle = (low + high) / 2;
        if (node->keys[middle] <= key)
            low = middle + 1;
        else
            high = middle;
    }
    return low ? low - 1 : count;
}

static uint64_t look_up(const struct node *node, uint64_t key, uint64_t *result)
{
    for (int depth = 0; depth < DEEPEST; depth++) {
        if (!is_inside(node, sizeof *node))
            return WRONG_ADDRESS;
        uint64_t count = node->count;
        if (count > KEYS)
            return WRONG_NODE;
        uint64_t place = place_of(node, count, key);
        if (place == count)
            return MISSING;
        *result = node->behind[place];
        if (node->height == 0)
            return node->keys[place] == key ? DONE : MISSING;
        node = (const struct node *)*result;
    }
    return WRONG_NODE;
}

uint64_t program(struct request *request)
{
    for (;;) {
        uint64_t number = next_request(request), result = 0;
        uint64_t status = look_up((const struct node *)request->arguments[0], request->arguments[1], &result);
        answer_request(request, number, status == DONE ? result : 0, status);
    }
}
