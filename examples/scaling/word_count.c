// Counts the words of a text, which are runs of bytes above a space, and adds the count to a total. A word ends with its text.
#include "bpfagent_program.h"

#define EACH(byte) ((byte) * UINT64_C(0x0101010101010101))
// Keeps a constant in a register: the compiler would load it anew in each turn.
#define KEPT(name, value) uint64_t name = value; __asm__("" : "+r"(name))
// As many words of eight bytes are counted in one byte each before their counts are added up.
#define TURNS 255

// The sum of eight counts of a byte.
static inline uint64_t sum_of(uint64_t counts)
{
    uint64_t pairs = (counts & UINT64_C(0x00ff00ff00ff00ff)) + (counts >> 8 & UINT64_C(0x00ff00ff00ff00ff));
    return pairs * UINT64_C(0x0001000100010001) >> 48;
}

uint64_t program(uint64_t *total, const uint8_t *text)
{
    uint64_t words = 0, before = 0, length = object_length(object_of(text));
    const uint8_t *end = text + length, *whole = end - length % 8;
    KEPT(low, EACH(0x7f));
    KEPT(above, EACH(0x7f - ' '));
    KEPT(top, EACH(0x80));
    // The top bit of each byte of `inside` says that the byte belongs to a word. A word begins where the byte before doesn't.
    while (text != whole) {
        const uint8_t *stop = whole - text > 8 * TURNS ? text + 8 * TURNS : whole;
        uint64_t counts = 0;
        for (; text != stop; text += 8) {
            uint64_t bytes = *(const uint64_t *)text;
            uint64_t inside = (((bytes & low) + above) | bytes) & top;
            counts += (inside & ~(inside << 8 | before)) >> 7;
            before = inside >> 56;
        }
        words += sum_of(counts);
    }
    for (; text != end; text++) {
        uint64_t inside = *text > ' ' ? 0x80 : 0;
        words += (inside & ~before) >> 7;
        before = inside;
    }
    *total += words;
    return words;
}
