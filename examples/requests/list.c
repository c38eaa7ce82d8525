// Follows a list for so many nodes, and adds their values: accesses of which each needs the one before. A request has the
// address of the first node and how many are to be followed.
#include "bpfagent_program.h"

struct node {
    uint64_t value;
    struct node *next;
};

enum status { DONE = REQUEST_DONE, WRONG_ADDRESS };

uint64_t program(struct request *request)
{
    for (;;) {
        uint64_t number = next_request(request), sum = 0, status = DONE;
        const struct node *node = (const struct node *)request->arguments[0];
        for (uint64_t left = request->arguments[1]; left; left--) {
            if (!is_inside(node, sizeof *node)) {
                status = WRONG_ADDRESS;
                break;
            }
            sum += node->value;
            node = node->next;
        }
        answer_request(request, number, sum, status);
    }
}
