/* What the measured programs share. Each takes the address of an object of 65,536 zeros in R1, and ends with a number in R0. */
#ifndef PROGRAM_H
#define PROGRAM_H
typedef unsigned char uint8_t;
typedef unsigned int uint32_t;
typedef unsigned long long uint64_t;

/* The next number of a row that looks random. */
static inline uint32_t next(uint32_t x)
{
    return x * 1664525u + 1013904223u;
}
#endif
