// The CRC-32 of a row of bytes, as zip and Ethernet have it.
#include "bpfagent_program.h"

#define POLYNOMIAL 0xedb88320

uint64_t program(const uint8_t *data, uint64_t length)
{
    uint32_t crc = 0xffffffff;

    for (uint64_t i = 0; i < length; i++) {
        crc ^= data[i];
        for (int bit = 0; bit < 8; bit++)
            crc = crc >> 1 ^ (crc & 1 ? POLYNOMIAL : 0);
    }
    return (uint32_t)~crc;
}
