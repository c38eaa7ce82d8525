// A list whose nodes stand anywhere in objects: a pointer that is kept in an object is an object's number and an offset.
#include "bpfagent_program.h"

struct node {
    struct node *next;
    uint64_t value;
};
