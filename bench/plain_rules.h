/*
 * Rules 1 to 15 of 01-scope.md and 02-change-requests.md in plain C, for plain.c, plain_pieces.c and plain_turn.c: judged in the
 * order of their numbers, with the number and the place of the first that holds.
 */
#ifndef BENCH_PLAIN_RULES_H
#define BENCH_PLAIN_RULES_H

#include "plain.h"

#include <math.h>
#include <stdbool.h>
#include <string.h>

enum { HEADER = 348, FIRST = 352, MOST_EXTENSIONS = 64 };

static const uint64_t MOST_OFFSET = 134217728, MOST_BYTES = 1099511627776;

static inline uint16_t get16(const uint8_t *from, bool big)
{
    uint16_t n;
    memcpy(&n, from, sizeof n);
    return big ? __builtin_bswap16(n) : n;
}

static inline uint32_t get32(const uint8_t *from, bool big)
{
    uint32_t n;
    memcpy(&n, from, sizeof n);
    return big ? __builtin_bswap32(n) : n;
}

static inline float as_float(uint32_t bits)
{
    float f;
    memcpy(&f, &bits, sizeof f);
    return f;
}

static inline float get_float(const uint8_t *from, bool big)
{
    return as_float(get32(from, big));
}

/* The bits of a datatype and its swap unit in bytes; false where there is no such datatype. */
static inline bool format_of(int datatype, int *bits, int *unit)
{
    switch (datatype) {
    case 2: case 256: *bits = 8, *unit = 1; return true;
    case 4: case 512: *bits = 16, *unit = 2; return true;
    case 128: *bits = 24, *unit = 1; return true;
    case 2304: *bits = 32, *unit = 1; return true;
    case 8: case 16: case 768: *bits = 32, *unit = 4; return true;
    case 32: *bits = 64, *unit = 4; return true;
    case 64: case 1024: case 1280: *bits = 64, *unit = 8; return true;
    case 1536: *bits = 128, *unit = 16; return true;
    case 1792: *bits = 128, *unit = 8; return true;
    case 2048: *bits = 256, *unit = 16; return true;
    default: return false;
    }
}

/* What the calls need of a file: its place and bytes of image, its dims, how many extensions, and the one that is wanted. */
struct outline {
    uint64_t refusal, place;
    uint64_t offset, bytes, end;
    bool big, pair, extended;
    int16_t dim[8];
    int16_t datatype, bitpix;
    int unit;
    uint32_t extensions;
    uint64_t start;
    int32_t size, code;
};

static inline bool refuse(struct outline *o, uint64_t number, uint64_t place)
{
    o->refusal = number;
    o->place = place;
    return false;
}

/* Rules 13 to 15, from `first`, where `bytes` stand and which `count` extensions precede, to the region's end. */
static inline bool walk(const uint8_t *bytes, uint64_t first, uint32_t count, uint64_t wanted, struct outline *o)
{
    uint64_t at = first;
    do {
        uint64_t left = o->end - at;
        if (count == MOST_EXTENSIONS)
            return refuse(o, 15, at);
        if (left < 16)
            return refuse(o, 13, at);
        int32_t size = get32(bytes + (at - first), o->big), code = get32(bytes + (at - first) + 4, o->big);
        if (size <= 0 || size % 16 != 0 || (uint64_t)size > left)
            return refuse(o, 13, at);
        if (code < 0)
            return refuse(o, 14, at + 4);
        if (count == wanted) {
            o->start = at;
            o->size = size;
            o->code = code;
        }
        count++;
        at += size;
    } while (at < o->end);
    o->extensions = count;
    return true;
}

/* Rules 1 to 12, by the file's length and its first 352 bytes. */
static inline bool judge_front(const uint8_t *file, uint64_t length, struct outline *o)
{
    if (length < HEADER)
        return refuse(o, 1, 0);
    uint16_t axes = get16(file + 40, false);
    o->big = axes < 1 || axes > 7;
    if (o->big) {
        axes = get16(file + 40, true);
        if (axes < 1 || axes > 7)
            return refuse(o, 2, 40);
    }
    if (get32(file, o->big) != HEADER)
        return refuse(o, 3, 0);
    o->pair = memcmp(file + 344, "ni1", 4) == 0;
    if (!o->pair && memcmp(file + 344, "n+1", 4) != 0)
        return refuse(o, 4, 344);
    for (int i = 0; i < 8; i++)
        o->dim[i] = get16(file + 40 + 2 * i, o->big);
    for (int i = 1; i <= axes; i++)
        if (o->dim[i] < 1)
            return refuse(o, 5, 40 + 2 * i);
    o->datatype = get16(file + 70, o->big);
    o->bitpix = get16(file + 72, o->big);
    int bits;
    if (!format_of(o->datatype, &bits, &o->unit))
        return refuse(o, 6, 70);
    if (o->bitpix != bits)
        return refuse(o, 7, 72);
    float offset = get_float(file + 108, o->big);
    if (!(offset >= 0) || isinf(offset) || (offset < 16777216 && offset != (float)(uint32_t)offset))
        return refuse(o, 8, 108);
    if (offset > MOST_OFFSET || (o->pair ? length > MOST_OFFSET : offset < FIRST))
        return refuse(o, 9, 108);
    o->offset = offset;
    o->bytes = bits / 8;
    for (int i = 1; i <= axes; i++) {
        o->bytes *= o->dim[i];
        if (o->bytes > MOST_BYTES)
            return refuse(o, 10, 40);
    }
    if (!o->pair && length < o->offset + o->bytes)
        return refuse(o, 11, 108);
    if (length > HEADER && length < FIRST)
        return refuse(o, 12, 348);
    o->refusal = o->place = 0;
    o->extensions = 0;
    o->end = o->pair ? length : o->offset;
    o->extended = length >= FIRST && file[HEADER] != 0;
    return true;
}

/* One struct, its members set one after the other: so gcc copies it once at most. */
static inline vestumbral_file shown(bool accepted, const struct outline *o)
{
    vestumbral_file answer = {0};
    if (!accepted) {
        answer.refusal = o->refusal;
        answer.place = o->place;
        return answer;
    }
    answer.data_offset = o->offset;
    answer.data_bytes = o->bytes;
    answer.big_endian = o->big;
    answer.pair = o->pair;
    for (int i = 0; i < 8; i++)
        answer.dim[i] = o->dim[i];
    answer.datatype = o->datatype;
    answer.bitpix = o->bitpix;
    answer.extensions = o->extensions;
    answer.aligned = o->offset % 16 == 0;
    uint64_t step = o->bitpix / 8;
    for (int i = 0; i < 7; i++) {
        answer.step[i] = step;
        step *= i < o->dim[0] ? o->dim[i + 1] : 1;
    }
    return answer;
}

#endif
