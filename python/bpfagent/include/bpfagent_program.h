// For programs in C that bpfagent runs. docs/WRITING-PROGRAMS.md leads through it.
//
// A program is one file. Its entry point is `program`, the one function that isn't static. It takes up to five numbers
// or addresses, which are A1 to A5 of the `ship` line, and what it returns is V of `stopped m exit V`.
//
// The same file compiles natively, for tests: there an object is a buffer that is mapped at the object's own address.
#ifndef BPFAGENT_PROGRAM_H
#define BPFAGENT_PROGRAM_H

#include "bpfagent_request.h"
#include <stdint.h>

// Helpers.
#ifdef __bpf__
static uint64_t (*const object_length)(uint64_t object) = (void *)1;
static uint64_t (*const machine_number)(void) = (void *)2;
static uint64_t (*const emit)(uint64_t value) = (void *)3;
static uint64_t (*const close_scopes)(void) = (void *)4;
#else
uint64_t object_length(uint64_t object); // in bytes; 0 where there is no such object, or it wasn't granted
uint64_t machine_number(void);           // this machine's own
uint64_t emit(uint64_t value);           // keeps a value for `out`: 0, or 1 where 64 are kept, and then it is lost
uint64_t close_scopes(void);             // no object that was touched so far is held in place any longer; always 0
#endif

// Whether this program may read the object: there is one, and `ship` or `ship2` granted it. An access without a grant
// stops the machine (notgranted). Whether it may write it too can't be asked.
static inline int is_granted(uint64_t object)
{
    return object_length(object) != 0;
}

// Addresses. An object's bytes are at its number times 2^32 and on, so an address is a pointer.
static inline uint64_t object_of(const volatile void *address)
{
    return (uint64_t)address >> 32;
}

static inline uint64_t offset_of(const volatile void *address)
{
    return (uint32_t)(uint64_t)address;
}

static inline void *address_of(uint64_t object, uint64_t offset)
{
    return (void *)((object << 32) + offset);
}

// Atomic operations on uint32_t and uint64_t at a multiple of their size (else: stop misaligned). Each gives the old
// value. A compare-exchange writes `value` where `wanted` stands, and only then the old value is `wanted`.
#define atomic_add(place, value) __sync_fetch_and_add(place, value)
#define atomic_or(place, value) __sync_fetch_and_or(place, value)
#define atomic_and(place, value) __sync_fetch_and_and(place, value)
#define atomic_xor(place, value) __sync_fetch_and_xor(place, value)
#define atomic_exchange(place, value) __sync_lock_test_and_set(place, value)
#define atomic_compare_exchange(place, wanted, value) __sync_val_compare_and_swap(place, wanted, value)

// One load or store that the compiler neither leaves out, repeats nor moves past another one of these. Every access
// is done whole.
#define atomic_read(place) (*(const volatile __typeof__(*(place)) *)(place))
#define atomic_write(place, value) (*(volatile __typeof__(*(place)) *)(place) = (value))

// The compiler moves no access past this. Instructions are done in order, so nothing else is needed.
#define compiler_barrier() __asm__ volatile("" ::: "memory")

// Requests: a program that is shipped once, and answers for as long as the agent lives. docs/REQUESTS.md leads through it.

// Closes the scopes, and names the place at which the machine is to pause until a request comes. The tools find the name
// in the object file, and set a breakpoint there. Without one the program goes on at once.
static inline __attribute__((always_inline)) void await_request(void)
{
#ifdef __bpf__
    __asm__ volatile("call 4\nawait_request.%=:" ::: "r0", "r1", "r2", "r3", "r4", "r5", "memory");
#else
    close_scopes();
#endif
}

// Waits for the next request, and gives its number. Where the machine goes on without one, it waits again.
static inline __attribute__((always_inline)) uint64_t next_request(const struct request *request)
{
    uint64_t number;

    do
        await_request();
    while ((number = atomic_read(&request->number)) == atomic_read(&request->answered));
    return number;
}

// Answers the request of this number.
static inline void answer_request(struct request *request, uint64_t number, uint64_t result, uint64_t status)
{
    atomic_write(&request->result, result);
    atomic_write(&request->status, status);
    atomic_write(&request->answered, number);
}

// Whether so many bytes from an address on are in one object that this program may read. A program asks it of an address
// that came with a request, and answers a status of its own if not; otherwise a wrong address stops the machine for good.
static inline int is_inside(const volatile void *address, uint64_t size)
{
    uint64_t length = object_length(object_of(address));

    return size <= length && offset_of(address) <= length - size && length != 0;
}

// A function that is called and not inlined. Eight such calls may be open. The stack has 512 bytes for `program` and for
// each of seven nested calls; the eighth has none.
#define CALLED static __attribute__((noinline))

#endif
