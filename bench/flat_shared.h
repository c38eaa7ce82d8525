/* Accesses to objects that threads share, for bench/flat.c. A word's layout is that of crates/pointer_word: bits 0 and 1 say where
   the object is, zero if it is here; bit 2 that an actor has its turn; bit 3 that it was used lately; bits 8 to 15 count open
   scopes; the rest is its stamp. */
#ifndef FLAT_SHARED_H
#define FLAT_SHARED_H
#ifndef FLAT_SHARED
#define FLAT_SHARED
#endif
#include "flat.h"
#include <stdatomic.h>

#define OWN_STACK UINT32_MAX
#define PLACE UINT64_C(3)
#define TURN UINT64_C(4)
#define HOT UINT64_C(8)
#define SCOPE UINT64_C(0x100)
#define STAMP UINT64_C(0x10000)
#define STAMP_LIMIT UINT64_C(0xffffffffffff)

/* Where bytes were found, and the object whose turn was taken for them, if it is one's, with what gives the turn back; or no bytes,
   and the reason. */
struct reached {
    uint8_t *bytes;
    struct flat_object *object;
    uint64_t back;
    enum flat_stop stop;
};

#define STOP_OF(found) (found).stop
#define MISSED(why) (struct reached){ .stop = (why) }

/* Opens the object's scope, if it is here, and closes the oldest that was open. */
__attribute__((noinline)) static int open_scope(struct flat_machine *m, uint32_t number)
{
    uint32_t *window = m->seat.window, oldest = window[3];
    if (atomic_fetch_add(&m->table[number].word, SCOPE) & PLACE) {
        atomic_fetch_sub(&m->table[number].word, SCOPE);
        return 0;
    }
    for (int k = 3; k > 0; k--) window[k] = window[k - 1];
    window[0] = number;
    if (oldest) atomic_fetch_sub(&m->table[oldest].word, SCOPE);
    return 1;
}

static inline struct reached reach(struct flat_machine *m, uint64_t address, uint64_t size)
{
    uint32_t number = (uint32_t)(address >> 32), from = (uint32_t)address;
    const uint32_t *window = m->seat.window;
    if (number >= FLAT_TABLE) {
        if (number != OWN_STACK || from + size > sizeof m->stack) return MISSED(FLAT_OUTSIDE);
        return (struct reached){ .bytes = m->stack + from };
    }
    struct flat_object *object = &m->table[number];
    if (from + size > object->length) return MISSED(FLAT_OUTSIDE);
    if (window[0] != number && window[1] != number && window[2] != number && window[3] != number && !open_scope(m, number))
        return MISSED(FLAT_AWAY);
    uint64_t word = atomic_fetch_or(&object->word, TURN | HOT);
    if (word & TURN) return MISSED(FLAT_BUSY);
    uint64_t old = word / STAMP, stamp = (m->seat.stamp > old ? m->seat.stamp : old) + 1;
    if (stamp > STAMP_LIMIT) {
        atomic_fetch_sub(&object->word, TURN);
        return MISSED(FLAT_WORN);
    }
    m->seat.stamp = stamp;
    return (struct reached){ .bytes = object->bytes + from, .object = object, .back = (stamp - old) * STAMP - TURN };
}

static inline void leave(struct reached found)
{
    if (found.object) atomic_fetch_add(&found.object->word, found.back);
}
#endif
