// A request to a program that was shipped once, and its answer, as client and program see it. docs/REQUESTS.md leads
// through it. Numbers have their lowest byte first.
#ifndef BPFAGENT_REQUEST_H
#define BPFAGENT_REQUEST_H

#include <stdint.h>

// It lies at the beginning of an object that is one machine's alone. The client writes the first part by one `put`, and
// reads the second by one `get`.
struct request {
    uint64_t number;       // another one each time; at first 0, which is no request
    uint64_t arguments[5]; // what the program takes them for
    uint64_t answered;     // the number of the request that the program answered last, written after all of its answer
    uint64_t result;
    uint64_t status;       // REQUEST_DONE, or a number of the program's own that says why there is no result
};

#define REQUEST_DONE 0

// How many bytes the client's part has, and where the program's begins.
#define REQUEST_BYTES 48
#define ANSWER_BYTES 24

#endif
