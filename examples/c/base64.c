// Base64 of a row of bytes. Returns the text's length. The alphabet comes in an object, since a program has no data
// of its own.
#include "bpfagent_program.h"

uint64_t program(char *text, const uint8_t *data, uint64_t length, const char *alphabet)
{
    uint64_t written = 0;

    for (uint64_t i = 0; i < length; i += 3) {
        uint64_t left = length - i;
        uint32_t group = (uint32_t)data[i] << 16;
        if (left > 1)
            group |= (uint32_t)data[i + 1] << 8;
        if (left > 2)
            group |= data[i + 2];
        text[written++] = alphabet[group >> 18];
        text[written++] = alphabet[group >> 12 & 63];
        text[written++] = left > 1 ? alphabet[group >> 6 & 63] : '=';
        text[written++] = left > 2 ? alphabet[group & 63] : '=';
    }
    return written;
}
