/* Little-endian headers for the C tests and the benchmark, built from the field offsets of source document 003 alone. */
#ifndef TESTS_NIFTI_H
#define TESTS_NIFTI_H

#include <stdint.h>
#include <string.h>

static inline void put16(uint8_t *to, unsigned value)
{
    to[0] = value & 255;
    to[1] = value >> 8 & 255;
}

static inline void put32(uint8_t *to, uint32_t value)
{
    put16(to, value & 65535);
    put16(to + 2, value >> 16);
}

static inline uint32_t get32(const uint8_t *from)
{
    return from[0] | from[1] << 8 | from[2] << 16 | (uint32_t)from[3] << 24;
}

static inline uint32_t float_bits(float value)
{
    uint32_t bits;
    memcpy(&bits, &value, sizeof bits);
    return bits;
}

/* 348 bytes; dims has dim[0] first, offset is vox_offset by its bits. Every field that is not named is zero. */
static inline void header(uint8_t *file, int pair, const int *dims, int datatype, int bitpix, uint32_t offset)
{
    memset(file, 0, 348);
    put32(file, 348);
    for (int i = 0; i <= dims[0]; i++)
        put16(file + 40 + 2 * i, dims[i]);
    put16(file + 70, datatype);
    put16(file + 72, bitpix);
    put32(file + 108, offset);
    memcpy(file + 344, pair ? "ni1" : "n+1", 4);
}

#endif
