/* What the machine that is measured starts with, as crates/bench_start has it, and its run. */
#ifndef WORK_H
#define WORK_H
#include <stddef.h>
#include <stdint.h>

/* Its fuel, R1, how many objects there are, the machine's number, and how many objects it is granted, or 0 for all. */
struct work {
    uint64_t fuel, argument;
    uint32_t objects;
    size_t machines, granted;
};

/* Runs the code in that machine. Gives R0 as it stops, and how many instructions ran. */
uint64_t bpf_run(const uint8_t *code, size_t length, const struct work *work, uint64_t *steps);

#endif
