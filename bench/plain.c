/*
 * The library's calls written plainly in C, for the benchmark to time the library beside: each judges rules 1 to 15 in the order of
 * their numbers, then its own, and answers the number and the place of the first that holds. Nothing is proved of them; the
 * benchmark stops where an answer differs from the library's.
 */
#include "plain_rules.h"

static void put32(uint8_t *to, bool big, uint32_t n)
{
    if (big)
        n = __builtin_bswap32(n);
    memcpy(to, &n, sizeof n);
}

/* Rules 1 to 15; not inlined, so that all calls run the same code. */
static __attribute__((noinline)) bool judge(const uint8_t *file, size_t length, uint64_t wanted, struct outline *o)
{
    return judge_front(file, length, o) && (!o->extended || walk(file + FIRST, FIRST, 0, wanted, o));
}

vestumbral_file plain_read(const uint8_t *file, size_t file_len)
{
    struct outline o;
    return shown(judge(file, file_len, 0, &o), &o);
}

vestumbral_extension plain_extension_at(const uint8_t *file, size_t file_len, uint64_t number)
{
    struct outline o;
    if (!judge(file, file_len, number, &o))
        return (vestumbral_extension){.refusal = o.refusal, .place = o.place};
    if (number >= o.extensions)
        return (vestumbral_extension){.refusal = 18};
    return (vestumbral_extension){.start = o.start, .size = o.size, .code = o.code};
}

vestumbral_reply plain_voxel(const uint8_t *file, size_t file_len, const uint8_t *image, size_t image_len,
                             uint64_t i1, uint64_t i2, uint64_t i3, uint64_t i4, uint64_t i5, uint64_t i6, uint64_t i7)
{
    (void)image;
    struct outline o;
    if (!judge(file, file_len, 0, &o))
        return (vestumbral_reply){.refusal = o.refusal, .place = o.place};
    if (o.pair && image_len < o.offset + o.bytes)
        return (vestumbral_reply){.refusal = 16};
    const uint64_t index[7] = {i1, i2, i3, i4, i5, i6, i7};
    uint64_t number = 0;
    for (int i = 6; i >= 0; i--) {
        uint64_t length = i < o.dim[0] ? o.dim[i + 1] : 1;
        if (index[i] >= length)
            return (vestumbral_reply){.refusal = 17};
        number = index[i] + length * number;
    }
    uint64_t bytes = o.bitpix / 8;
    return (vestumbral_reply){.place = o.offset + bytes * number, .length = bytes};
}

/* The sum of index x step over the seven axes; false where an index is outside its axis, and an axis after dim[0] has one voxel. */
static inline bool add_steps(const vestumbral_file *file, const uint64_t index[7], uint64_t *sum)
{
    for (int i = 0; i < 7; i++) {
        int length = i < file->dim[0] ? file->dim[i + 1] : 1;
        if (index[i] >= (uint64_t)(length < 0 ? 0 : length))
            return false;
        *sum += index[i] * file->step[i];
    }
    return true;
}

vestumbral_reply plain_voxel_in(vestumbral_file file, uint64_t image_len,
                                uint64_t i1, uint64_t i2, uint64_t i3, uint64_t i4, uint64_t i5, uint64_t i6, uint64_t i7)
{
    (void)image_len;
    if (file.refusal != 0)
        return (vestumbral_reply){.refusal = file.refusal, .place = file.place};
    const uint64_t index[7] = {i1, i2, i3, i4, i5, i6, i7};
    uint64_t place = file.data_offset;
    if (!add_steps(&file, index, &place))
        return (vestumbral_reply){.refusal = 17};
    return (vestumbral_reply){.place = place, .length = file.step[0]};
}

plain_place plain_place_of(const vestumbral_file *file,
                           uint64_t i1, uint64_t i2, uint64_t i3, uint64_t i4, uint64_t i5, uint64_t i6, uint64_t i7)
{
    const uint64_t index[7] = {i1, i2, i3, i4, i5, i6, i7};
    uint64_t place = file->data_offset;
    if (!add_steps(file, index, &place))
        return (plain_place){0, 0};
    return (plain_place){place, file->step[0]};
}

/* Voxels of so many bytes that lie `step` bytes apart, one after another. */
static inline __attribute__((always_inline)) void each_step(uint8_t *out, const uint8_t *from, uint64_t step, uint64_t count, size_t bytes)
{
    for (uint64_t k = 0; k < count; k++, from += step, out += bytes)
        memcpy(out, from, bytes);
}

void plain_steps(uint8_t *out, const uint8_t *from, uint64_t step, uint64_t count, size_t bytes)
{
    switch (bytes) {
    case 1: each_step(out, from, step, count, 1); break;
    case 2: each_step(out, from, step, count, 2); break;
    case 3: each_step(out, from, step, count, 3); break;
    case 4: each_step(out, from, step, count, 4); break;
    case 8: each_step(out, from, step, count, 8); break;
    case 16: each_step(out, from, step, count, 16); break;
    default: each_step(out, from, step, count, 32); break;
    }
}

vestumbral_reply plain_line(const uint8_t *file, size_t file_len, const uint8_t *image, size_t image_len, uint64_t axis,
                            uint64_t i1, uint64_t i2, uint64_t i3, uint64_t i4, uint64_t i5, uint64_t i6, uint64_t i7,
                            uint8_t *out, size_t out_len)
{
    struct outline o;
    if (!judge(file, file_len, 0, &o))
        return (vestumbral_reply){.refusal = o.refusal, .place = o.place};
    if (o.pair && image_len < o.offset + o.bytes)
        return (vestumbral_reply){.refusal = 16};
    if (axis < 1 || axis > (uint64_t)o.dim[0])
        return (vestumbral_reply){.refusal = 17};
    const uint64_t index[7] = {i1, i2, i3, i4, i5, i6, i7};
    const uint64_t bytes = o.bitpix / 8, count = o.dim[axis];
    uint64_t place = o.offset, step = bytes, along = 0;
    for (int i = 0; i < 7; i++) {
        uint64_t length = i < o.dim[0] ? o.dim[i + 1] : 1;
        if (index[i] >= length)
            return (vestumbral_reply){.refusal = 17};
        if (i + 1 == (int)axis)
            along = step;
        else
            place += index[i] * step;
        step *= length;
    }
    if (out_len < count * bytes)
        return (vestumbral_reply){.refusal = 22};
    const uint8_t *from = (o.pair ? image : file) + place;
    if (along == bytes)
        memcpy(out, from, count * bytes);
    else
        plain_steps(out, from, along, count, bytes);
    return (vestumbral_reply){.length = count * bytes};
}

/* How the slices were acquired, as far as a file states it. */
struct timing {
    int code, start, end, length;
    float duration;
};

static bool is_stated(const uint8_t *file, const struct outline *o, struct timing *t)
{
    int axis = file[39] >> 4 & 3;
    if (axis < 1 || axis > o->dim[0])
        return false;
    *t = (struct timing){.code = file[122], .length = o->dim[axis], .duration = get_float(file + 132, o->big),
                         .start = (int16_t)get16(file + 74, o->big), .end = (int16_t)get16(file + 120, o->big)};
    return t->duration > 0 && !isinf(t->duration) && t->code >= 1 && t->code <= 6
        && t->start >= 0 && t->start < t->end && t->end < t->length;
}

/* A slice's turn, by its code and its distance from the first or the last slice. */
static uint32_t rank_of(const struct timing *t, int slice)
{
    uint32_t n = t->end - t->start + 1, o = t->code % 2 == 1 ? slice - t->start : t->end - slice;
    if (t->code <= 2)
        return o;
    if (t->code <= 4)
        return o % 2 == 0 ? o / 2 : (n + 1) / 2 + (o - 1) / 2;
    return o % 2 == 1 ? (o - 1) / 2 : n / 2 + o / 2;
}

vestumbral_slice plain_slice_at(const uint8_t *file, size_t file_len, uint64_t slice)
{
    struct outline o;
    struct timing t;
    if (!judge(file, file_len, 0, &o))
        return (vestumbral_slice){.refusal = o.refusal, .place = o.place};
    if (!is_stated(file, &o, &t))
        return (vestumbral_slice){.state = 0};
    if (slice >= (uint64_t)t.length)
        return (vestumbral_slice){.refusal = 17};
    if (slice < (uint64_t)t.start || slice > (uint64_t)t.end)
        return (vestumbral_slice){.state = 1};
    uint32_t rank = rank_of(&t, slice);
    float seconds = rank * t.duration;
    if (isinf(seconds))
        return (vestumbral_slice){.state = 0};
    return (vestumbral_slice){.state = 2, .rank = rank, .seconds = seconds};
}

vestumbral_ranked plain_slice_of_rank(const uint8_t *file, size_t file_len, uint64_t rank)
{
    struct outline o;
    struct timing t;
    if (!judge(file, file_len, 0, &o))
        return (vestumbral_ranked){.refusal = o.refusal, .place = o.place};
    if (!is_stated(file, &o, &t))
        return (vestumbral_ranked){.stated = 0};
    uint32_t n = t.end - t.start + 1, r = rank, first = t.code <= 4 ? (n + 1) / 2 : n / 2;
    if (rank >= n)
        return (vestumbral_ranked){.refusal = 17};
    if (t.code > 2) /* the even ones first, of ALT2 the odd ones */
        r = r < first ? 2 * r + (t.code > 4) : 2 * (r - first) + (t.code <= 4);
    return (vestumbral_ranked){.stated = 1, .slice = t.code % 2 == 1 ? t.start + r : t.end - r};
}

/* One coordinate, rounded after each operation; false where it is no number. */
static bool coordinate(const uint8_t *row, bool big, float i, float j, float k, float *to)
{
    float s[4];
    for (int n = 0; n < 4; n++) {
        s[n] = get_float(row + 4 * n, big);
        if (!isfinite(s[n]))
            return false;
    }
    *to = s[0] * i + s[1] * j + s[2] * k + s[3];
    return isfinite(*to);
}

vestumbral_position plain_position_of(const uint8_t *file, size_t file_len, uint64_t i, uint64_t j, uint64_t k)
{
    struct outline o;
    if (!judge(file, file_len, 0, &o))
        return (vestumbral_position){.refusal = o.refusal, .place = o.place};
    const uint64_t index[3] = {i, j, k};
    for (int n = 0; n < 3; n++)
        if (index[n] >= (n < o.dim[0] ? (uint64_t)o.dim[n + 1] : 1))
            return (vestumbral_position){.refusal = 17};
    vestumbral_position answer = {.refusal = 0};
    if ((int16_t)get16(file + 254, o.big) <= 0 || !coordinate(file + 280, o.big, i, j, k, &answer.x)
        || !coordinate(file + 296, o.big, i, j, k, &answer.y) || !coordinate(file + 312, o.big, i, j, k, &answer.z))
        return (vestumbral_position){.refusal = 23};
    return answer;
}

/* Turns `count` numbers of a type round, in place. */
#define TURN(type, turned)                                      \
    for (; count > 0; count--, at += sizeof(type)) {            \
        type n;                                                 \
        memcpy(&n, at, sizeof n);                               \
        n = turned(n);                                          \
        memcpy(at, &n, sizeof n);                               \
    }

/* Turns `count` units of `unit` bytes round, in place. */
static void turn(uint8_t *at, uint64_t count, int unit)
{
    if (unit == 2) {
        TURN(uint16_t, __builtin_bswap16)
    } else if (unit == 4) {
        TURN(uint32_t, __builtin_bswap32)
    } else if (unit == 8) {
        TURN(uint64_t, __builtin_bswap64)
    } else if (unit == 16) {
        for (; count > 0; count--, at += 16) {
            uint64_t first, last;
            memcpy(&first, at, 8);
            memcpy(&last, at + 8, 8);
            first = __builtin_bswap64(first);
            last = __builtin_bswap64(last);
            memcpy(at, &last, 8);
            memcpy(at + 8, &first, 8);
        }
    }
}

vestumbral_reply plain_swap(uint8_t *file, size_t file_len, uint8_t *image, size_t image_len)
{
    /* The header's numbers: where some stand, how many, and how wide. */
    static const struct { uint16_t at, count, width; } numbers[] = {
        {0, 1, 4}, {32, 1, 4}, {36, 1, 2}, {40, 8, 2}, {56, 3, 4}, {68, 4, 2},
        {76, 11, 4}, {120, 1, 2}, {124, 6, 4}, {252, 2, 2}, {256, 18, 4},
    };
    struct outline o;
    if (!judge(file, file_len, 0, &o))
        return (vestumbral_reply){.refusal = o.refusal, .place = o.place};
    if (o.pair && image_len < o.offset + o.bytes)
        return (vestumbral_reply){.refusal = 16};
    for (size_t i = 0; i < sizeof numbers / sizeof *numbers; i++)
        turn(file + numbers[i].at, numbers[i].count, numbers[i].width);
    uint64_t at = FIRST;
    for (uint32_t i = 0; i < o.extensions; i++) {
        uint32_t size = get32(file + at, o.big);
        turn(file + at, 2, 4);
        at += size;
    }
    turn((o.pair ? image : file) + o.offset, o.bytes / o.unit, o.unit);
    return (vestumbral_reply){.refusal = 0};
}

/*
 * Puts `size` bytes in the place of `old` ones at `at`, in a file that was judged: what follows slides along, freed bytes become
 * zero, and the extender's first byte and a single file's vox_offset are set anew. A file of 348 bytes gains three zeros after that
 * byte. The code and the payload are stored where size is not 0.
 */
static vestumbral_reply splice(uint8_t *buffer, uint64_t room, uint64_t length, const struct outline *o, uint64_t at, uint64_t old,
                               uint64_t size, int32_t code, const uint8_t *payload, size_t payload_len)
{
    uint64_t held = length < FIRST ? FIRST : length, end = (o->end < FIRST ? FIRST : o->end) - old + size;
    uint64_t fresh = held - old + size;
    if (end > MOST_OFFSET)
        return (vestumbral_reply){.refusal = 21};
    if (fresh > room)
        return (vestumbral_reply){.refusal = 22};
    if (old != size)
        memmove(buffer + at + size, buffer + at + old, held - at - old);
    if (fresh < length)
        memset(buffer + fresh, 0, length - fresh);
    if (size > 0) {
        put32(buffer + at, o->big, size);
        put32(buffer + at + 4, o->big, code);
        if (payload_len > 0)
            memcpy(buffer + at + 8, payload, payload_len);
        memset(buffer + at + 8 + payload_len, 0, size - 8 - payload_len);
    }
    if (length < FIRST)
        memset(buffer + HEADER, 0, FIRST - HEADER);
    buffer[HEADER] = end > FIRST;
    if (!o->pair) {
        float offset = end;
        uint32_t bits;
        memcpy(&bits, &offset, sizeof bits);
        put32(buffer + 108, o->big, bits);
    }
    return (vestumbral_reply){.length = fresh, .aligned = (o->pair ? o->offset : end) % 16 == 0};
}

static uint64_t size_for(size_t payload_len)
{
    return payload_len > MOST_OFFSET ? MOST_OFFSET + 16 : (payload_len + 8 + 15) / 16 * 16;
}

vestumbral_reply plain_append(uint8_t *buffer, size_t buffer_len, uint64_t file_len,
                              int32_t code, const uint8_t *payload, size_t payload_len)
{
    struct outline o;
    if (file_len > buffer_len)
        return (vestumbral_reply){.refusal = 24};
    if (!judge(buffer, file_len, 0, &o))
        return (vestumbral_reply){.refusal = o.refusal, .place = o.place};
    if (code < 0)
        return (vestumbral_reply){.refusal = 19};
    if (o.extensions == 0 && o.end > FIRST)
        return (vestumbral_reply){.refusal = 20};
    if (o.extensions == MOST_EXTENSIONS)
        return (vestumbral_reply){.refusal = 21};
    uint64_t at = o.end < FIRST ? FIRST : o.end;
    return splice(buffer, buffer_len, file_len, &o, at, 0, size_for(payload_len), code, payload, payload_len);
}

/* Puts an extension of `size` bytes, or none where that is 0, in the place of a numbered one. */
static vestumbral_reply exchange(uint8_t *buffer, size_t buffer_len, uint64_t file_len, uint64_t number, uint64_t size,
                                 int32_t code, const uint8_t *payload, size_t payload_len)
{
    struct outline o;
    if (file_len > buffer_len)
        return (vestumbral_reply){.refusal = 24};
    if (!judge(buffer, file_len, number, &o))
        return (vestumbral_reply){.refusal = o.refusal, .place = o.place};
    if (number >= o.extensions)
        return (vestumbral_reply){.refusal = 18};
    if (code < 0)
        return (vestumbral_reply){.refusal = 19};
    return splice(buffer, buffer_len, file_len, &o, o.start, o.size, size, code, payload, payload_len);
}

vestumbral_reply plain_replace(uint8_t *buffer, size_t buffer_len, uint64_t file_len, uint64_t number,
                               int32_t code, const uint8_t *payload, size_t payload_len)
{
    return exchange(buffer, buffer_len, file_len, number, size_for(payload_len), code, payload, payload_len);
}

vestumbral_reply plain_remove(uint8_t *buffer, size_t buffer_len, uint64_t file_len, uint64_t number)
{
    return exchange(buffer, buffer_len, file_len, number, 0, 0, NULL, 0);
}
