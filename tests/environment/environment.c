/*
 * The calls in floating-point states that are not the default: each rounding mode, with flush-to-zero and denormals-are-zero, and
 * with every exception trapped. There read, extension_at, voxel, voxel_in, both lines, slice_of_rank, both swaps, the edits, the
 * calls for pieces and a turn without sform answer as in the default state, leave the same bytes in every lent buffer, and do not
 * touch the state: the only float that they compute is the vox_offset of an edit, a multiple of 16 up to 2^27, which no state
 * rounds. Slice times, positions and the srow numbers of a turn are computed in the state, so the header asks for the default; what
 * is printed shows what another makes of one of each.
 */
#include "../nifti.h"
#include "vestumbral.h"

#include <fenv.h>
#include <pmmintrin.h>
#include <stdio.h>
#include <stdlib.h>
#include <string.h>

/* The default state is the first of both. */
static const struct { int mode; const char *name; } roundings[] = {
    {FE_TONEAREST, "to nearest"}, {FE_UPWARD, "upward"}, {FE_DOWNWARD, "downward"}, {FE_TOWARDZERO, "toward zero"}};
static const struct { unsigned bits; const char *name; } controls[] = {
    {_MM_MASK_MASK, "nothing else"},
    {_MM_MASK_MASK | _MM_FLUSH_ZERO_ON, "flush-to-zero"},
    {_MM_MASK_MASK | _MM_DENORMALS_ZERO_ON, "denormals-are-zero"},
    {_MM_MASK_MASK | _MM_FLUSH_ZERO_ON | _MM_DENORMALS_ZERO_ON, "flush-to-zero and denormals-are-zero"},
    {0, "every exception trapped"}};
enum { ROUNDINGS = sizeof roundings / sizeof *roundings, CONTROLS = sizeof controls / sizeof *controls };

static int rounding, control;
static unsigned told, failed;

static void enter(int next_rounding, int next_control)
{
    rounding = next_rounding;
    control = next_control;
    _mm_setcsr(controls[control].bits);
    fesetround(roundings[rounding].mode);
}

static void fail(const char *what)
{
    printf("environment: rounding %s, %s: %s\n", roundings[rounding].name, controls[control].name, what);
    failed++;
}

/* In the default state what is told is kept; in another it is compared with what was kept. */
static uint8_t kept[1 << 24];
static size_t used;

static void tell(const char *what, const void *bytes, size_t length)
{
    if (length > sizeof kept - used) {
        puts("environment: too much is told");
        exit(2);
    }
    if (rounding == 0 && control == 0)
        memcpy(kept + used, bytes, length);
    else if (memcmp(kept + used, bytes, length) != 0)
        fail(what);
    used += length;
    told++;
}

enum { PAYLOAD = 100000, SMALL = 512, VOXELS = 24, PIECE = 256 };
static uint8_t buffer[SMALL + 2 * PAYLOAD], payload[PAYLOAD], image[VOXELS], out[SMALL], out_image[VOXELS];

/* Answers by value have no padding, so their bytes can be told; of what reading answers, up to its last member. */
enum { FILE_BYTES = offsetof(vestumbral_file, aligned) + sizeof(uint32_t) };
_Static_assert(sizeof(vestumbral_reply) == 32 && FILE_BYTES == 124 && sizeof(vestumbral_extension) == 32, "padding");
_Static_assert(sizeof(vestumbral_taken) == 912 && sizeof(vestumbral_turned) == 32 && sizeof(vestumbral_ranked) == 24, "padding");

static void look(size_t length)
{
    vestumbral_file file = vestumbral_read(buffer, length);
    tell("read", &file, FILE_BYTES);
    vestumbral_taken taken = {.pieces = vestumbral_pieces_start()};
    for (size_t at = 0; at < length; at += PIECE)
        taken = vestumbral_pieces_take(taken.pieces, buffer + at, length - at < PIECE ? length - at : PIECE);
    tell("pieces_take", &taken, sizeof taken);
    file = vestumbral_pieces_file(taken.pieces);
    tell("pieces_file", &file, FILE_BYTES);
    for (uint64_t i = 0; i < 3; i++) {
        vestumbral_extension extension = vestumbral_extension_at(buffer, length, i);
        tell("extension_at", &extension, sizeof extension);
        extension = vestumbral_pieces_extension_at(taken.pieces, i);
        tell("pieces_extension_at", &extension, sizeof extension);
    }
    for (uint64_t i = 0; i < 4; i++)
        for (uint64_t j = 0; j < 2; j++) {
            vestumbral_reply voxel = vestumbral_voxel(buffer, length, image, sizeof image, i, j, 0, 0, 0, 0, 0);
            tell("voxel", &voxel, sizeof voxel);
            voxel = vestumbral_voxel_in(file, sizeof image, i, j, 0, 0, 0, 0, 0);
            tell("voxel_in", &voxel, sizeof voxel);
        }
}

/* What a call that writes answered, and what it left behind; then what the file is, `length` long. */
static void wrote(const char *call, vestumbral_reply reply, size_t lent, size_t length)
{
    tell(call, &reply, sizeof reply);
    tell(call, buffer, lent);
    tell(call, image, sizeof image);
    look(length);
}

/* A file of 3 x 2 binary32 voxels, its floats ones that such a state changes in arithmetic: subnormals and a signalling NaN. */
static const uint32_t floats[6] = {0x00000001, 0x807fffff, 0x7f800001, 0x00000c00, 0x3eaaaaab, 0xff800000};

static size_t start(int pair, uint32_t offset)
{
    memset(buffer, 0xa5, sizeof buffer);
    memset(image, 0xa5, sizeof image);
    header(buffer, pair, (const int[]){2, 3, 2}, 16, 32, offset);
    put32(buffer + 132, floats[3]); /* slice_duration */
    for (int i = 0; i < 6; i++) {
        put32(buffer + 280 + 4 * i, floats[i]); /* srow_x and half of srow_y */
        put32((pair ? image : buffer + 352) + 4 * i, floats[i]);
    }
    if (pair)
        return 348;
    put32(buffer + 348, 0x09090900); /* no extensions, and three reserved bytes */
    return 352 + VOXELS;
}

/* Both kinds in both orders, with a first extension of each length: that many bytes more or less before the image. */
static void edits(void)
{
    static const size_t lengths[] = {0, 5, 8, 9, 24, 1000, PAYLOAD};
    for (int kind = 0; kind < 4; kind++)
        for (size_t i = 0; i < sizeof lengths / sizeof *lengths; i++) {
            size_t length = start(kind & 1, kind & 1 ? 0 : 0x43b00000), lent = length + 2 * lengths[i] + 64;
            if (kind & 2)
                wrote("swap", vestumbral_swap(buffer, length, image, sizeof image), lent, length);
            vestumbral_reply reply = vestumbral_append(buffer, lent, length, 6, payload, lengths[i]);
            wrote("append", reply, lent, reply.length);
            reply = vestumbral_append(buffer, lent, reply.length, 4, payload, 3);
            wrote("append", reply, lent, reply.length);
            reply = vestumbral_replace(buffer, lent, reply.length, 1, 8, payload, lengths[i]);
            wrote("replace", reply, lent, reply.length);
            wrote("swap", vestumbral_swap(buffer, reply.length, image, sizeof image), lent, reply.length);
            wrote("swap by unit", vestumbral_swap_by_unit(buffer, reply.length, image, sizeof image), lent, reply.length);
            reply = vestumbral_remove(buffer, lent, reply.length, 0);
            wrote("remove", reply, lent, reply.length);
            reply = vestumbral_remove(buffer, lent, reply.length, 0);
            wrote("remove", reply, lent, reply.length);
            if (reply.refusal != 0)
                fail("the last removal is refused");
        }
}

/* vox_offset by its bits, on both sides of the rules 8 and 9: a subnormal is a fraction, though some states take it for zero. */
static void offsets(void)
{
    static const uint32_t bits[] = {0x00000000, 0x80000000, 0x00000001, 0x80000001, 0x007fffff, 0x43b00000, 0x43b04000, 0x43af8000,
                                    0x43b80000, 0x4b800001, 0x4d000000, 0x4d000001, 0x7f800000, 0x7f800001, 0x7fc00000, 0xff800000};
    for (int pair = 0; pair < 2; pair++)
        for (size_t i = 0; i < sizeof bits / sizeof *bits; i++) {
            size_t length = start(pair, bits[i]);
            look(length);
            wrote("append", vestumbral_append(buffer, SMALL, length, 6, payload, 5), SMALL, length);
        }
}

/* A line that is copied out, or of an axis that the file has not, and its buffer. */
static void copied(const char *call, vestumbral_reply line, int has_axis)
{
    if ((line.refusal == 0) != has_axis)
        fail(has_axis ? "a line is refused" : "a line of no axis is not refused");
    tell(call, &line, sizeof line);
    tell(call, out, sizeof out);
    memset(out, 0xa5, sizeof out);
}

/* The lines through each voxel of both kinds in both orders, along axes 0 to 3 of 3 x 2 voxels. */
static void lines(void)
{
    memset(out, 0xa5, sizeof out);
    for (int kind = 0; kind < 4; kind++) {
        size_t length = start(kind & 1, kind & 1 ? 0 : 0x43b00000);
        if (kind & 2)
            vestumbral_swap(buffer, length, image, sizeof image);
        for (uint64_t axis = 0; axis < 4; axis++)
            for (uint64_t voxel = 0; voxel < 6; voxel++) {
                const uint64_t i = voxel % 3, j = voxel / 3;
                const int has_axis = axis == 1 || axis == 2;
                vestumbral_reply line;
                line = vestumbral_line(buffer, length, image, sizeof image, axis, i, j, 0, 0, 0, 0, 0, out, VOXELS);
                copied("line", line, has_axis);
                line = vestumbral_line_by_voxel(buffer, length, image, sizeof image, axis, i, j, 0, 0, 0, 0, 0, out, VOXELS);
                copied("line by voxel", line, has_axis);
            }
    }
}

/* The slices of ranks 0 to 2, and two ranks past them. By the first six durations timing is stated, by the others not: a subnormal
 * is above zero, though some states take it for zero, and no time is computed, which by the sixth would be infinite. */
static void ranks(void)
{
    static const uint32_t durations[] = {0x00000001, 0x00000c00, 0x007fffff, 0x00800000, 0x3dcccccd, 0x7f7fffff, 0x00000000,
                                         0x80000000, 0x80000001, 0xbdcccccd, 0x7f800000, 0x7f800001, 0x7fc00000, 0xff800000};
    static const uint64_t asked[] = {0, 1, 2, 3, UINT64_MAX};
    for (int kind = 0; kind < 4; kind++)
        for (size_t i = 0; i < sizeof durations / sizeof *durations; i++)
            for (int code = 1; code <= 6; code++) {
                size_t length = start(kind & 1, kind & 1 ? 0 : 0x43b00000);
                buffer[39] = 1 << 4; /* dim_info */
                put16(buffer + 120, 2); /* slice_end */
                buffer[122] = code; /* slice_code */
                put32(buffer + 132, durations[i]); /* slice_duration */
                if (kind & 2)
                    vestumbral_swap(buffer, length, image, sizeof image);
                for (size_t k = 0; k < sizeof asked / sizeof *asked; k++) {
                    vestumbral_ranked answer = vestumbral_slice_of_rank(buffer, length, asked[k]);
                    if (answer.stated != (i < 6 && k < 3) || answer.refusal != (i < 6 && k >= 3 ? 17 : 0))
                        fail("a rank is not answered as its duration asks");
                    tell("slice_of_rank", &answer, sizeof answer);
                }
            }
}

/* Every turn of both kinds in both orders, as 3 x 2 x 1 voxels; sform_code is not above 0, and the srow numbers are moved alone. */
static void turns(void)
{
    static const uint8_t orders[6][3] = {{1, 2, 3}, {1, 3, 2}, {2, 1, 3}, {2, 3, 1}, {3, 1, 2}, {3, 2, 1}};
    for (int kind = 0; kind < 8; kind++) {
        size_t length = start(kind & 1, kind & 1 ? 0 : 0x43b00000);
        put16(buffer + 40, 3); /* dim[0] and dim[3] */
        put16(buffer + 46, 1);
        put16(buffer + 254, kind & 4 ? 0xffff : 0); /* sform_code */
        if (kind & 2)
            vestumbral_swap(buffer, length, image, sizeof image);
        for (int turn = 0; turn < 48; turn++) {
            const uint8_t *axes = orders[turn / 8];
            memset(out, 0xa5, sizeof out);
            memset(out_image, 0xa5, sizeof out_image);
            vestumbral_turned answer = vestumbral_turn(buffer, length, image, sizeof image, axes[0], axes[1], axes[2], turn & 1,
                                                       turn & 2, turn & 4, out, sizeof out, out_image, sizeof out_image);
            if (answer.refusal != 0)
                fail("a turn is refused");
            tell("turn", &answer, sizeof answer);
            tell("turn", out, sizeof out);
            tell("turn", out_image, sizeof out_image);
        }
    }
}

static void all(void)
{
    used = told = 0;
    unsigned before = _mm_getcsr();
    edits();
    offsets();
    lines();
    ranks();
    turns();
    tell("payload", payload, sizeof payload);
    if (_mm_getcsr() != before)
        fail("the state itself changed");
}

/* Slices of which each takes 0x00000c00, a subnormal; a position, and a shift of axis 1 reversed, of which the exact value is not a
 * binary32. */
static void show(int next_rounding, int next_control)
{
    header(buffer, 1, (const int[]){3, 4, 1, 4}, 2, 8, 0);
    buffer[39] = 3 << 4; /* dim_info */
    put16(buffer + 120, 3); /* slice_end */
    buffer[122] = 1; /* slice_code */
    put32(buffer + 132, 0x00000c00); /* slice_duration */
    put16(buffer + 254, 1); /* sform_code */
    put32(buffer + 280, 0x3eaaaaab); /* srow_x[0], a third */
    enter(next_rounding, next_control);
    vestumbral_slice slice = vestumbral_slice_at(buffer, 348, 1);
    vestumbral_position position = vestumbral_position_of(buffer, 348, 3, 0, 0);
    vestumbral_turned turned = vestumbral_turn(buffer, 348, image, sizeof image, 1, 2, 3, 1, 0, 0, out, sizeof out, out_image,
                                               sizeof out_image);
    enter(0, 0);
    if (turned.refusal != 0)
        fail("a turn with sform is refused");
    printf("environment: rounding %s, %s: slice state %d, time %08x; position %08x; turned shift %08x\n",
           roundings[next_rounding].name, controls[next_control].name, (int)slice.state, float_bits(slice.seconds),
           float_bits(position.x), get32(out + 292));
}

int main(void)
{
    unsigned started = _mm_getcsr();
    for (size_t i = 0; i < sizeof payload; i++)
        payload[i] = (uint8_t)(i * 7 + 1);
    for (int r = 0; r < ROUNDINGS; r++)
        for (int c = 0; c < CONTROLS; c++) {
            enter(r, c);
            all();
        }
    enter(0, 0);
    show(0, 0);
    show(1, 0);
    show(0, 1);
    show(0, 2);
    printf("environment: started %s flush-to-zero; %d states, %u answers and buffers in each, %u different\n",
           started & _MM_FLUSH_ZERO_ON ? "with" : "without", ROUNDINGS * CONTROLS, told, failed);
    return failed != 0;
}
