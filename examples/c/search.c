// Emits each place at which a pattern stands in a text. Returns how many there are.
#include "bpfagent_program.h"

uint64_t program(const char *text, uint64_t length, const char *pattern, uint64_t wanted)
{
    uint64_t count = 0;

    for (uint64_t at = 0; at + wanted <= length; at++) {
        uint64_t same = 0;
        while (same < wanted && text[at + same] == pattern[same])
            same++;
        if (same == wanted) {
            emit(at);
            count++;
        }
    }
    return count;
}
