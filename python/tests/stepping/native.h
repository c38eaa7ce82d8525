/* What the programs here need to run on this machine and as BPF: each has a function `program` of a number. */
#include <stdint.h>
#define CALLED static __attribute__((noinline))
#define INLINED static inline __attribute__((always_inline))
#ifdef __bpf__
#define MAIN(number)
#else
#define MAIN(number)                                                                                                                       \
    volatile uint64_t given = number;                                                                                                      \
    int main(void)                                                                                                                         \
    {                                                                                                                                      \
        return (int)program(given);                                                                                                        \
    }
#endif
uint64_t program(uint64_t n);
