/* The library's turn written plainly in C, as plain.c has the other calls. */
#include "plain_rules.h"

/*
 * Writes voxels of `width` bytes one after another: those from `from` on, by these steps in bytes, the first axis innermost. The
 * width is a constant where this is called.
 */
static inline __attribute__((always_inline)) void gather(uint8_t *restrict to, const uint8_t *restrict from,
                                                         const uint64_t count[4], const ptrdiff_t step[4], size_t width)
{
    for (uint64_t l = 0; l < count[3]; l++, from += step[3]) {
        const uint8_t *slice = from;
        for (uint64_t k = 0; k < count[2]; k++, slice += step[2]) {
            const uint8_t *line = slice;
            for (uint64_t j = 0; j < count[1]; j++, line += step[1]) {
                const uint8_t *voxel = line;
                for (uint64_t i = 0; i < count[0]; i++, voxel += step[0], to += width)
                    memcpy(to, voxel, width);
            }
        }
    }
}

/* The old image in the new order; axes are those of the old file, from 0. Axes 4 to 7 go along as one. */
static void turn_image(uint8_t *to, const uint8_t *from, const struct outline *o, const int axes[3], const bool reversed[3])
{
    ptrdiff_t step = o->bitpix / 8, steps[3];
    for (int i = 0; i < 3; i++) {
        steps[i] = reversed[i] ? -step : step;
        from += reversed[i] ? step * (o->dim[i + 1] - 1) : 0;
        step *= o->dim[i + 1];
    }
    uint64_t count[4] = {o->dim[axes[0] + 1], o->dim[axes[1] + 1], o->dim[axes[2] + 1], o->bytes / step};
    ptrdiff_t in_order[4] = {steps[axes[0]], steps[axes[1]], steps[axes[2]], step};
    switch (o->bitpix / 8) {
    case 1: gather(to, from, count, in_order, 1); break;
    case 2: gather(to, from, count, in_order, 2); break;
    case 3: gather(to, from, count, in_order, 3); break;
    case 4: gather(to, from, count, in_order, 4); break;
    case 8: gather(to, from, count, in_order, 8); break;
    case 16: gather(to, from, count, in_order, 16); break;
    default: gather(to, from, count, in_order, 32); break;
    }
}

/* A row of srow after the turn; false where a number of it is not finite. */
static bool turn_row(float row[4], const struct outline *o, const int axes[3], const bool reversed[3])
{
    float old[3];
    for (int i = 0; i < 3; i++)
        if (reversed[i])
            row[3] += row[i] * (o->dim[i + 1] - 1);
    for (int i = 0; i < 3; i++)
        old[i] = reversed[i] ? -row[i] : row[i];
    for (int k = 0; k < 3; k++)
        row[k] = old[axes[k]];
    return isfinite(row[0]) && isfinite(row[1]) && isfinite(row[2]) && isfinite(row[3]);
}

vestumbral_turned plain_turn(const uint8_t *file, size_t file_len, const uint8_t *image, size_t image_len,
                             uint64_t axis1, uint64_t axis2, uint64_t axis3,
                             uint64_t reverse1, uint64_t reverse2, uint64_t reverse3,
                             uint8_t *out, size_t out_len, uint8_t *out_image, size_t out_image_len)
{
    struct outline o;
    if (!judge_front(file, file_len, &o) || (o.extended && !walk(file + FIRST, FIRST, 0, 0, &o)))
        return (vestumbral_turned){.refusal = o.refusal, .place = o.place};
    if (o.pair && image_len < o.offset + o.bytes)
        return (vestumbral_turned){.refusal = 16};
    if (o.dim[0] < 3)
        return (vestumbral_turned){.refusal = 29};
    if (axis1 - 1 > 2 || axis2 - 1 > 2 || axis3 - 1 > 2 || axis1 == axis2 || axis1 == axis3 || axis2 == axis3)
        return (vestumbral_turned){.refusal = 30};
    const int axes[3] = {axis1 - 1, axis2 - 1, axis3 - 1};
    const bool reversed[3] = {reverse1, reverse2, reverse3}, placed = (int16_t)get16(file + 254, o.big) > 0;
    float srow[3][4];
    for (int row = 0; row < 3 && placed; row++) {
        for (int i = 0; i < 4; i++)
            srow[row][i] = get_float(file + 280 + 16 * row + 4 * i, o.big);
        if (!turn_row(srow[row], &o, axes, reversed))
            return (vestumbral_turned){.refusal = 23};
    }
    if (out_len < file_len || (o.pair && out_image_len < image_len))
        return (vestumbral_turned){.refusal = 22};
    const uint8_t *holder = o.pair ? image : file;
    uint8_t *to = o.pair ? out_image : out;
    uint64_t end = o.offset + o.bytes;
    if (o.pair)
        memcpy(out, file, file_len);
    memcpy(to, holder, o.offset);
    turn_image(to + o.offset, holder + o.offset, &o, axes, reversed);
    memcpy(to + end, holder + end, (o.pair ? image_len : file_len) - end);
    for (int k = 0; k < 3; k++) {
        memcpy(out + 42 + 2 * k, file + 42 + 2 * axes[k], 2);
        memcpy(out + 80 + 4 * k, file + 80 + 4 * axes[k], 4);
    }
    out[39] = out[122] = out[252] = out[253] = 0;
    for (int i = 0; i < 12 && placed; i++) {
        uint32_t bits;
        memcpy(&bits, &srow[i / 4][i % 4], sizeof bits);
        bits = o.big ? __builtin_bswap32(bits) : bits;
        memcpy(out + 280 + 4 * i, &bits, sizeof bits);
    }
    return (vestumbral_turned){.length = file_len, .image_length = o.pair ? image_len : 0};
}
