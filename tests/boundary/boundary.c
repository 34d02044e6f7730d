/*
 * The C interface from the C side: every call with NULL, with one byte, at exact fits and on the numbers of 01-scope.md ("Numbers
 * on each side"). Buffers come from the heap, under the address sanitizer, and once more from memory that ends, or begins, at a page
 * which may not be touched: the library is not built with the sanitizer, so only these ways see each of its own reads and writes.
 */
#include "../nifti.h"
#include "vestumbral.h"

#include <stdio.h>
#include <stdlib.h>
#include <string.h>
#include <sys/mman.h>

_Static_assert(sizeof(vestumbral_reply) == 32 && offsetof(vestumbral_reply, aligned) == 24, "reply");
_Static_assert(sizeof(vestumbral_file) == 128 && offsetof(vestumbral_file, dim) == 40, "file");
_Static_assert(offsetof(vestumbral_file, datatype) == 56 && offsetof(vestumbral_file, extensions) == 60, "file");
_Static_assert(offsetof(vestumbral_file, step) == 64 && offsetof(vestumbral_file, aligned) == 120, "file");
_Static_assert(VESTUMBRAL_INTERFACE == 3, "interface");
_Static_assert(sizeof(vestumbral_extension) == 32 && offsetof(vestumbral_extension, code) == 28, "extension");
_Static_assert(sizeof(vestumbral_slice) == 32 && offsetof(vestumbral_slice, seconds) == 24, "slice");
_Static_assert(sizeof(vestumbral_ranked) == 24 && offsetof(vestumbral_ranked, stated) == 16, "ranked");
_Static_assert(offsetof(vestumbral_ranked, slice) == 20, "ranked");
_Static_assert(sizeof(vestumbral_position) == 32 && offsetof(vestumbral_position, z) == 24, "position");
_Static_assert(sizeof(vestumbral_pieces) == 896 && offsetof(vestumbral_pieces, at) == 360, "pieces");
_Static_assert(offsetof(vestumbral_pieces, coming) == 376 && offsetof(vestumbral_pieces, marks[63].code) == 892, "pieces");
_Static_assert(sizeof(vestumbral_taken) == 912 && offsetof(vestumbral_taken, pieces) == 16, "taken");
_Static_assert(sizeof(vestumbral_turned) == 32 && offsetof(vestumbral_turned, image_length) == 24, "turned");

static unsigned checks, failed;

static void check(int fact, const char *text, int line)
{
    checks++;
    if (!fact) {
        failed++;
        printf("boundary.c:%d: %s\n", line, text);
    }
}

#define CHECK(fact) check((fact), #fact, __LINE__)
/* the answer is the refusal with this number and place */
#define REFUSED(answer, number, at) CHECK((answer).refusal == (number) && (answer).place == (at))

static int done(vestumbral_reply reply, uint64_t place, uint64_t length)
{
    return reply.refusal == 0 && reply.place == place && reply.length == length && reply.aligned == 0;
}

/* the answer of an edit, with what it says of the new file's vox_offset */
static int edited(vestumbral_reply reply, uint64_t length, uint64_t aligned)
{
    return reply.refusal == 0 && reply.place == 0 && reply.length == length && reply.aligned == aligned;
}

static int refused(vestumbral_reply reply, uint64_t refusal)
{
    return reply.refusal == refusal && reply.place == 0 && reply.length == 0 && reply.aligned == 0;
}

static int ranked(vestumbral_ranked answer, uint32_t stated, uint32_t slice)
{
    return answer.refusal == 0 && answer.place == 0 && answer.stated == stated && answer.slice == slice;
}

static int not_ranked(vestumbral_ranked answer, uint64_t refusal, uint64_t place)
{
    return answer.refusal == refusal && answer.place == place && answer.stated == 0 && answer.slice == 0;
}

static int turned(vestumbral_turned answer, uint64_t length, uint64_t image_length)
{
    return answer.refusal == 0 && answer.place == 0 && answer.length == length && answer.image_length == image_length;
}

static int not_turned(vestumbral_turned answer, uint64_t refusal)
{
    return answer.refusal == refusal && answer.place == 0 && answer.length == 0 && answer.image_length == 0;
}

static int all(const uint8_t *bytes, uint8_t value, size_t length)
{
    for (size_t i = 0; i < length; i++)
        if (bytes[i] != value)
            return 0;
    return 1;
}

/* File A of 01-scope.md, 364 bytes; its image bytes are 1 to 12. */
static void file_a(uint8_t *file)
{
    header(file, 0, (const int[]){2, 3, 2}, 4, 16, 0x43b00000);
    memset(file + 348, 0, 4);
    for (int i = 0; i < 12; i++)
        file[352 + i] = i + 1;
}

/* Memory of so many bytes: from the heap, or such that the byte after it, or before it, may not be touched. */
enum source { HEAP, FENCE_AFTER, FENCE_BEFORE };
enum { PAGE = 4096, PAGES = 3, FENCED = (PAGES + 2) * PAGE };

static uint8_t *take(enum source source, size_t length)
{
    if (source == HEAP) {
        uint8_t *bytes = malloc(length);
        if (bytes)
            return bytes;
    } else {
        uint8_t *low = mmap(NULL, FENCED, PROT_NONE, MAP_PRIVATE | MAP_ANONYMOUS, -1, 0);
        if (low != MAP_FAILED && length <= PAGES * PAGE && mprotect(low + PAGE, PAGES * PAGE, PROT_READ | PROT_WRITE) == 0)
            return source == FENCE_BEFORE ? low + PAGE : low + FENCED - PAGE - length;
    }
    puts("boundary: no memory");
    exit(2);
}

static void give_back(enum source source, uint8_t *bytes, size_t length)
{
    if (source == HEAP)
        free(bytes);
    else
        munmap(source == FENCE_BEFORE ? bytes - PAGE : bytes + length + PAGE - FENCED, FENCED);
}

/* The state after this piece, of which the total is not passed. */
static vestumbral_pieces fed(vestumbral_pieces pieces, const uint8_t *piece, size_t length)
{
    vestumbral_taken taken = vestumbral_pieces_take(pieces, piece, length);
    REFUSED(taken, 0, 0);
    return taken.pieces;
}

/* The struct ends with four bytes that have no meaning. */
static int same_file(const vestumbral_file *a, const vestumbral_file *b)
{
    return memcmp(a, b, offsetof(vestumbral_file, aligned)) == 0 && a->aligned == b->aligned;
}

/* What a file is, and its extension `number`, are answered alike by its state and by the whole of it. */
static void as_whole(vestumbral_pieces pieces, const uint8_t *file, size_t length, uint64_t number)
{
    vestumbral_file whole = vestumbral_read(file, length), in_pieces = vestumbral_pieces_file(pieces);
    vestumbral_extension one = vestumbral_extension_at(file, length, number);
    vestumbral_extension same = vestumbral_pieces_extension_at(pieces, number);
    CHECK(same_file(&whole, &in_pieces));
    CHECK(memcmp(&one, &same, sizeof one) == 0);
}

static int steps_are(vestumbral_file file, const uint64_t steps[7])
{
    return memcmp(file.step, steps, sizeof file.step) == 0;
}

#define STEPS(...) ((const uint64_t[7]){__VA_ARGS__})

/* Every call with `length` bytes, 0 or 1, at this pointer, which may be NULL only for 0. */
static void too_short(uint8_t *bytes, size_t length)
{
    vestumbral_file file = vestumbral_read(bytes, length);
    REFUSED(file, 1, 0);
    CHECK(file.data_offset == 0 && file.data_bytes == 0 && file.big_endian == 0 && file.pair == 0 && file.extensions == 0);
    CHECK(file.dim[0] == 0 && file.dim[7] == 0 && file.datatype == 0 && file.bitpix == 0 && steps_are(file, STEPS(0)));
    CHECK(file.aligned == 0);
    CHECK(refused(vestumbral_voxel_in(file, UINT64_MAX, 0, 0, 0, 0, 0, 0, 0), 1));
    vestumbral_extension extension = vestumbral_extension_at(bytes, length, 0);
    REFUSED(extension, 1, 0);
    CHECK(extension.start == 0 && extension.size == 0 && extension.code == 0);
    vestumbral_slice slice = vestumbral_slice_at(bytes, length, 0);
    REFUSED(slice, 1, 0);
    CHECK(slice.state == 0 && slice.rank == 0 && float_bits(slice.seconds) == 0);
    CHECK(not_ranked(vestumbral_slice_of_rank(bytes, length, 0), 1, 0));
    CHECK(not_ranked(vestumbral_slice_of_rank(bytes, length, UINT64_MAX), 1, 0));
    vestumbral_position position = vestumbral_position_of(bytes, length, 0, 0, 0);
    REFUSED(position, 1, 0);
    CHECK(float_bits(position.x) == 0 && float_bits(position.y) == 0 && float_bits(position.z) == 0);
    CHECK(refused(vestumbral_voxel(bytes, length, NULL, 0, 0, 0, 0, 0, 0, 0, 0), 1));
    CHECK(refused(vestumbral_line(bytes, length, NULL, 0, 1, 0, 0, 0, 0, 0, 0, 0, NULL, 0), 1));
    CHECK(refused(vestumbral_line(bytes, length, bytes, length, UINT64_MAX, UINT64_MAX, 0, 0, 0, 0, 0, 0, NULL, 0), 1));
    CHECK(refused(vestumbral_line_by_voxel(bytes, length, NULL, 0, 1, 0, 0, 0, 0, 0, 0, 0, NULL, 0), 1));
    CHECK(refused(vestumbral_line_by_voxel(bytes, length, bytes, length, UINT64_MAX, UINT64_MAX, 0, 0, 0, 0, 0, 0, NULL, 0), 1));
    CHECK(refused(vestumbral_swap(bytes, length, NULL, 0), 1));
    CHECK(refused(vestumbral_swap_by_unit(bytes, length, NULL, 0), 1));
    CHECK(refused(vestumbral_append(bytes, length, length, 0, NULL, 0), 1));
    CHECK(refused(vestumbral_replace(bytes, length, length, 0, 0, NULL, 0), 1));
    CHECK(refused(vestumbral_remove(bytes, length, length, 0), 1));
    CHECK(refused(vestumbral_append(bytes, length, length + 1, 0, NULL, 0), 24));
    CHECK(refused(vestumbral_replace(bytes, length, UINT64_MAX, 0, 0, NULL, 0), 24));
    CHECK(refused(vestumbral_remove(bytes, length, length + 1, 0), 24));
    CHECK(not_turned(vestumbral_turn(bytes, length, NULL, 0, 1, 2, 3, 0, 0, 0, NULL, 0, NULL, 0), 1));
    CHECK(not_turned(vestumbral_turn(bytes, length, bytes, length, 1, 1, 4, 0, 0, 0, NULL, 0, NULL, 0), 1));
    vestumbral_pieces pieces = fed(vestumbral_pieces_start(), bytes, length);
    as_whole(pieces, bytes, length, 0);
    as_whole(fed(pieces, bytes, 0), bytes, length, UINT64_MAX);
}

static void reading(enum source source)
{
    uint8_t *a = take(source, 364);
    file_a(a);
    vestumbral_file file = vestumbral_read(a, 364);
    REFUSED(file, 0, 0);
    CHECK(file.data_offset == 352 && file.data_bytes == 12 && file.big_endian == 0 && file.pair == 0 && file.extensions == 0);
    CHECK(file.dim[0] == 2 && file.dim[1] == 3 && file.dim[2] == 2 && file.dim[3] == 0 && file.datatype == 4 && file.bitpix == 16);
    CHECK(steps_are(file, STEPS(2, 6, 12, 12, 12, 12, 12)) && file.aligned == 1);
    REFUSED(vestumbral_extension_at(a, 364, 0), 18, 0);
    CHECK(done(vestumbral_voxel(a, 364, NULL, 0, 2, 1, 0, 0, 0, 0, 0), 362, 2));
    CHECK(refused(vestumbral_voxel(a, 364, NULL, 0, 3, 0, 0, 0, 0, 0, 0), 17));
    CHECK(refused(vestumbral_voxel(a, 364, NULL, 0, 0, 0, 0, 0, 0, 0, UINT64_MAX), 17));
    put16(a + 46, 0xffff); /* dim[3] is not judged, and its index must be 0 all the same */
    file = vestumbral_read(a, 364);
    CHECK(file.dim[3] == -1 && steps_are(file, STEPS(2, 6, 12, 12, 12, 12, 12)));
    CHECK(refused(vestumbral_voxel(a, 364, NULL, 0, 0, 0, 1, 0, 0, 0, 0), 17));
    CHECK(refused(vestumbral_voxel_in(file, 0, 0, 0, 1, 0, 0, 0, 0), 17));
    a[348] = 1;
    REFUSED(vestumbral_read(a, 364), 13, 352);
    give_back(source, a, 364);

    a = take(source, 363);
    uint8_t whole[364];
    file_a(whole);
    memcpy(a, whole, 363);
    file = vestumbral_read(a, 363);
    REFUSED(file, 11, 108);
    CHECK(steps_are(file, STEPS(0)) && file.aligned == 0);
    vestumbral_reply cut = vestumbral_voxel_in(file, 363, 0, 0, 0, 0, 0, 0, 0);
    CHECK(cut.refusal == 11 && cut.place == 108 && cut.length == 0 && cut.aligned == 0);
    CHECK(refused(vestumbral_append(a, 363, 364, 0, NULL, 0), 24));
    give_back(source, a, 363);

    a = take(source, 348);
    memset(a, 0, 348);
    REFUSED(vestumbral_read(a, 348), 2, 40);
    give_back(source, a, 348);
}

/* The five offsets, and minus zero, in a single file and in a pair's header file of 348 bytes. */
static void offsets(enum source source)
{
    const struct {
        uint32_t bits, single, pair;
        uint64_t whole;
    } rows[] = {{0x43b00000, 0, 0, 352},        {0x43b04000, 8, 8, 0}, {0x43af8000, 9, 0, 351},
                {0x4d000000, 11, 0, 134217728}, {0x4d000001, 9, 9, 0}, {0x80000000, 9, 0, 0}};
    for (size_t i = 0; i < sizeof rows / sizeof *rows; i++) {
        uint8_t *a = take(source, 364);
        file_a(a);
        put32(a + 108, rows[i].bits);
        REFUSED(vestumbral_read(a, 364), rows[i].single, rows[i].single ? 108 : 0);
        give_back(source, a, 364);
        uint8_t *pair = take(source, 348);
        header(pair, 1, (const int[]){1, 1}, 2, 8, rows[i].bits);
        vestumbral_file file = vestumbral_read(pair, 348);
        REFUSED(file, rows[i].pair, rows[i].pair ? 108 : 0);
        CHECK(file.data_offset == rows[i].whole);
        give_back(source, pair, 348);
    }
}

static void image_limit(void)
{
    const int dims[] = {3, 16384, 16384, 4096};
    const int wraps[] = {5, 16384, 16384, 16384, 16384, 256}; /* 2^64 bytes */
    uint8_t file[348];
    header(file, 1, dims, 2, 8, 0x4d000000);
    vestumbral_file most = vestumbral_read(file, 348);
    CHECK(done(vestumbral_voxel_in(most, 1099645845504, 16383, 16383, 4095, 0, 0, 0, 0), 1099645845503, 1));
    CHECK(refused(vestumbral_voxel_in(most, 1099645845503, 16383, 16383, 4095, 0, 0, 0, 0), 16));
    header(file, 1, dims, 2, 8, 0);
    most = vestumbral_read(file, 348);
    CHECK(most.data_bytes == 1099511627776);
    CHECK(steps_are(most, STEPS(1, 16384, 268435456, 1099511627776, 1099511627776, 1099511627776, 1099511627776)));
    CHECK(done(vestumbral_voxel_in(most, 1099511627776, 16383, 16383, 4095, 0, 0, 0, 0), 1099511627775, 1));
    CHECK(refused(vestumbral_voxel_in(most, 1099511627776, 16383, 16383, 4096, 0, 0, 0, 0), 17));
    CHECK(refused(vestumbral_voxel(file, 348, file, 1, 0, 0, 0, 0, 0, 0, 0), 16));
    CHECK(refused(vestumbral_voxel_in(most, 1, 0, 0, 0, 0, 0, 0, 0), 16));
    header(file, 1, dims, 4, 16, 0);
    REFUSED(vestumbral_read(file, 348), 10, 40);
    header(file, 1, wraps, 2, 8, 0);
    REFUSED(vestumbral_read(file, 348), 10, 40);
}

/* Files of 1 to 7 axes in memory of exactly their length: the steps, and each voxel by them and by the file. */
static void steps(enum source source)
{
    static const int dims[7] = {3, 2, 4, 2, 3, 2, 5};
    static const uint64_t right[8] = {2, 6, 12, 48, 96, 288, 576, 2880};
    for (int axes = 1; axes <= 7; axes++) {
        size_t length = 352 + right[axes];
        int named[8] = {axes};
        uint64_t expected[7], i[7] = {0};
        for (int k = 0; k < 7; k++) {
            named[k + 1] = dims[k];
            expected[k] = right[k < axes ? k : axes];
        }
        uint8_t *file = take(source, length);
        header(file, 0, named, 4, 16, 0x43b00000);
        memset(file + 348, 0, length - 348);
        vestumbral_file read = vestumbral_read(file, length), before = read;
        CHECK(read.refusal == 0 && read.data_bytes == right[axes] && steps_are(read, expected));
        as_whole(fed(vestumbral_pieces_start(), file, length), file, length, 0);
        for (uint64_t voxel = 0; voxel < right[axes] / 2; voxel++) {
            uint64_t rest = voxel;
            for (int k = 0; k < axes; k++) {
                i[k] = rest % dims[k];
                rest /= dims[k];
            }
            CHECK(done(vestumbral_voxel_in(read, 0, i[0], i[1], i[2], i[3], i[4], i[5], i[6]), 352 + 2 * voxel, 2));
            CHECK(done(vestumbral_voxel(file, length, NULL, 0, i[0], i[1], i[2], i[3], i[4], i[5], i[6]), 352 + 2 * voxel, 2));
        }
        for (int k = 0; k < 7; k++) {
            i[k]++;
            CHECK(refused(vestumbral_voxel_in(read, 0, i[0], i[1], i[2], i[3], i[4], i[5], i[6]), 17));
            i[k]--;
        }
        CHECK(same_file(&read, &before));
        vestumbral_swap(file, length, NULL, 0);
        CHECK(steps_are(vestumbral_read(file, length), expected));
        give_back(source, file, length);
    }
}

/* The record of file A, as the rows below change it. */
static vestumbral_file record_a(void)
{
    return (vestumbral_file){.data_offset = 352, .data_bytes = 12, .dim = {2, 3, 2}, .datatype = 4, .bitpix = 16,
                             .step = {2, 6, 12, 12, 12, 12, 12}};
}

/* Voxel (i, j) by a record, which stays as it was. */
static vestumbral_reply voxel_in(vestumbral_file file, uint64_t image_len, uint64_t i, uint64_t j)
{
    vestumbral_file before = file;
    vestumbral_reply reply = vestumbral_voxel_in(file, image_len, i, j, 0, 0, 0, 0, 0);
    CHECK(same_file(&file, &before));
    return reply;
}

/* A record of which every byte is 0, and one of which every byte is FF: it is refused for one member after another is set right. */
static void blank_records(void)
{
    vestumbral_file file = {0};
    REFUSED(voxel_in(file, 0, 0, 0), 2, 40);
    memset(&file, 0xff, sizeof file);
    vestumbral_reply reply = voxel_in(file, UINT64_MAX, UINT64_MAX, UINT64_MAX);
    CHECK(reply.refusal == UINT64_MAX && reply.place == UINT64_MAX && reply.length == 0);
    file.refusal = 0;
    reply = voxel_in(file, 0, 0, 0);
    CHECK(reply.refusal == 2 && reply.place == 40 && reply.length == 0);
    file.dim[0] = 7;
    reply = voxel_in(file, 0, 0, 0);
    CHECK(reply.refusal == 9 && reply.place == 108 && reply.length == 0);
    file.data_offset = 1;
    CHECK(refused(voxel_in(file, UINT64_MAX, 0, 0), 16));
    file.data_offset = 0;
    CHECK(refused(voxel_in(file, UINT64_MAX - 1, 0, 0), 16));
    CHECK(refused(voxel_in(file, UINT64_MAX, 0, 0), 17));
    for (int i = 1; i < 8; i++) {
        CHECK(refused(voxel_in(file, UINT64_MAX, 0, 0), 17));
        file.dim[i] = 32767;
    }
    CHECK(refused(voxel_in(file, UINT64_MAX, 0, 0), 26));
    file.data_bytes = 1099511627776;
    CHECK(refused(voxel_in(file, UINT64_MAX, 0, 0), 26));
    file.step[0] = 1099511627776;
    CHECK(done(voxel_in(file, UINT64_MAX, 0, 0), 0, 1099511627776));
    CHECK(done(voxel_in(file, 1099511627776, 0, 0), 0, 1099511627776));
    CHECK(refused(voxel_in(file, 1099511627775, 0, 0), 16));
    CHECK(refused(voxel_in(file, UINT64_MAX, 0, 1), 26));
    CHECK(refused(vestumbral_voxel_in(file, UINT64_MAX, 32766, 32766, 32766, 32766, 32766, 32766, 32766), 26));
    CHECK(refused(vestumbral_voxel_in(file, UINT64_MAX, 32766, 32766, 32766, 32766, 32766, 32766, 32767), 17));
}

/* Every limit of a record on both of its sides, by the last voxel of A. */
static void records(void)
{
    vestumbral_file file = record_a();
    CHECK(done(voxel_in(file, 0, 2, 1), 362, 2) && done(voxel_in(file, UINT64_MAX, 2, 1), 362, 2));
    CHECK(refused(voxel_in(file, 0, 3, 0), 17) && refused(voxel_in(file, 0, 0, 2), 17));
    for (int k = 0; k < 7; k++) {
        uint64_t i[7] = {0};
        i[k] = UINT64_MAX;
        CHECK(refused(vestumbral_voxel_in(file, 0, i[0], i[1], i[2], i[3], i[4], i[5], i[6]), 17));
        i[k] = (uint64_t)1 << 32;
        CHECK(refused(vestumbral_voxel_in(file, 0, i[0], i[1], i[2], i[3], i[4], i[5], i[6]), 17));
    }
    const struct {
        uint64_t total;
        int fits;
    } totals[] = {{0, 0}, {11, 0}, {12, 1}, {13, 1}, {1099511627775, 1}, {1099511627776, 1}, {1099511627777, 0}, {UINT64_MAX, 0}};
    for (size_t i = 0; i < sizeof totals / sizeof *totals; i++) {
        file.data_bytes = totals[i].total;
        vestumbral_reply reply = voxel_in(file, 0, 2, 1);
        CHECK(totals[i].fits ? done(reply, 362, 2) : refused(reply, 26));
    }
    const struct {
        uint64_t offset;
        uint32_t single, pair;
    } begins[] = {{0, 9, 0},         {351, 9, 0},       {352, 0, 0},        {353, 0, 0},
                  {134217728, 0, 0}, {134217729, 9, 9}, {4294967648, 9, 9}, {UINT64_MAX, 9, 9}};
    for (size_t i = 0; i < sizeof begins / sizeof *begins; i++) {
        uint64_t offset = begins[i].offset, end = offset + 12;
        file = record_a();
        file.data_offset = offset;
        vestumbral_reply reply = voxel_in(file, 0, 2, 1);
        CHECK(begins[i].single ? reply.refusal == 9 && reply.place == 108 && reply.length == 0 : done(reply, offset + 10, 2));
        for (uint32_t pair = 1; pair != 0; pair *= 16) { /* any number but 0 is a pair */
            file.pair = pair;
            reply = voxel_in(file, end, 2, 1);
            CHECK(begins[i].pair ? reply.refusal == 9 && reply.place == 108 && reply.length == 0 : done(reply, offset + 10, 2));
            CHECK(begins[i].pair || (refused(voxel_in(file, end - 1, 2, 1), 16) && refused(voxel_in(file, 0, 3, 0), 16)));
        }
    }
    static const int16_t no_axes[] = {0, 8, -1, 256, 258, INT16_MIN, INT16_MAX};
    for (size_t i = 0; i < sizeof no_axes / sizeof *no_axes; i++) {
        file = record_a();
        file.dim[0] = no_axes[i];
        REFUSED(voxel_in(file, 0, 0, 0), 2, 40);
    }
    file = record_a();
    file.dim[1] = -3;
    CHECK(refused(voxel_in(file, 0, 0, 0), 17));
    file = record_a();
    file.refusal = 26;
    file.place = 5;
    REFUSED(voxel_in(file, 0, 3, 0), 26, 5);
}

/* Steps that are not those of the dims, of which the last would pass 64 bits. */
static void wrong_steps(void)
{
    vestumbral_file file = record_a();
    file.step[0] = 0;
    CHECK(refused(voxel_in(file, 0, 0, 0), 26) && refused(voxel_in(file, 0, 3, 0), 17));
    file.step[0] = 12;
    CHECK(done(voxel_in(file, 0, 0, 0), 352, 12) && refused(voxel_in(file, 0, 1, 0), 26));
    file.step[0] = 13;
    CHECK(refused(voxel_in(file, 0, 0, 0), 26));
    for (int k = 1; k < 7; k++) {
        uint64_t i[7] = {0};
        file = record_a();
        file.dim[0] = 7;
        for (int axis = 1; axis < 8; axis++)
            file.dim[axis] = 5;
        file.step[k] = UINT64_MAX;
        CHECK(done(vestumbral_voxel_in(file, 0, 1, 0, 0, 0, 0, 0, 0), 354, 2));
        i[k] = 1;
        CHECK(refused(vestumbral_voxel_in(file, 0, i[0], i[1], i[2], i[3], i[4], i[5], i[6]), 26));
        i[0] = 1; /* 2 + (2^64 - 1) is 1 in 64 bits, and 2 + (2^64 - 2) is 0 */
        CHECK(refused(vestumbral_voxel_in(file, 0, i[0], i[1], i[2], i[3], i[4], i[5], i[6]), 26));
        file.step[k] = UINT64_MAX - 1;
        CHECK(refused(vestumbral_voxel_in(file, 0, i[0], i[1], i[2], i[3], i[4], i[5], i[6]), 26));
        i[k] = 4; /* 4 x 2^62 is 0 in 64 bits */
        file.step[k] = (uint64_t)1 << 62;
        CHECK(refused(vestumbral_voxel_in(file, 0, i[0], i[1], i[2], i[3], i[4], i[5], i[6]), 26));
        file.step[k] = 2; /* 2 + 8 + 2 are all the bytes */
        CHECK(done(vestumbral_voxel_in(file, 0, i[0], i[1], i[2], i[3], i[4], i[5], i[6]), 362, 2));
        file.step[k] = 3;
        CHECK(refused(vestumbral_voxel_in(file, 0, i[0], i[1], i[2], i[3], i[4], i[5], i[6]), 26));
    }
    file = record_a();
    file.step[0] = UINT64_MAX; /* 6 + (2^64 - 1) is 5 in 64 bits */
    CHECK(refused(voxel_in(file, 0, 0, 0), 26) && refused(voxel_in(file, 0, 0, 1), 26) && refused(voxel_in(file, 0, 1, 0), 26));
    file = record_a();
    file.data_bytes = 1099511627776;
    file.step[1] = 1099511627774;
    CHECK(done(voxel_in(file, 0, 0, 1), 1099511628126, 2) && refused(voxel_in(file, 0, 1, 1), 26));
    file.step[1] = 1099511627775;
    CHECK(refused(voxel_in(file, 0, 0, 1), 26) && done(voxel_in(file, 0, 2, 0), 356, 2));
}

typedef vestumbral_reply line_call(const uint8_t *, size_t, const uint8_t *, size_t, uint64_t, uint64_t, uint64_t, uint64_t,
                                   uint64_t, uint64_t, uint64_t, uint64_t, uint8_t *, size_t);

/*
 * The lines of A, whose voxels are 1 to 12 by twos: at exact fits, with bytes to spare, one byte short and with no buffer. The file
 * ends with its last voxel.
 */
static void lines(enum source source, line_call *line)
{
    static const uint8_t rows[2][6] = {{1, 2, 3, 4, 5, 6}, {7, 8, 9, 10, 11, 12}};
    static const uint8_t columns[3][4] = {{1, 2, 7, 8}, {3, 4, 9, 10}, {5, 6, 11, 12}};
    static const uint64_t no_axes[] = {0, 3, 4, 5, 6, 7, 8, 257, 65537, 4294967297, 4294967298, UINT64_MAX - 1, UINT64_MAX};
    static const uint64_t past[] = {1, 4294967296, UINT64_MAX / 2 + 1, UINT64_MAX - 3};
    uint8_t *a = take(source, 364), *row = take(source, 6), *column = take(source, 4), before[364];
    file_a(before);
    memcpy(a, before, 364);
    memset(row, 0xaa, 6);
    CHECK(refused(line(a, 364, NULL, 0, 1, 0, 0, 0, 0, 0, 0, 0, NULL, 0), 22));
    CHECK(refused(line(a, 364, NULL, 0, 1, 0, 0, 0, 0, 0, 0, 0, row, 0), 22));
    CHECK(refused(line(a, 364, NULL, 0, 1, 0, 0, 0, 0, 0, 0, 0, row, 5), 22));
    CHECK(refused(line(a, 364, NULL, 0, 2, 0, 0, 0, 0, 0, 0, 0, row, 3), 22));
    for (size_t i = 0; i < sizeof no_axes / sizeof *no_axes; i++) {
        CHECK(refused(line(a, 364, NULL, 0, no_axes[i], 0, 0, 0, 0, 0, 0, 0, row, 6), 17));
        CHECK(refused(line(a, 364, NULL, 0, no_axes[i], 0, 0, 0, 0, 0, 0, 0, NULL, 0), 17));
        CHECK(refused(line(a, 364, NULL, 0, no_axes[i], 3, 0, 0, 0, 0, 0, 0, row, 6), 17));
    }
    for (uint64_t axis = 1; axis <= 2; axis++)
        for (int k = 0; k < 7; k++)
            for (size_t p = 0; p < sizeof past / sizeof *past; p++) {
                uint64_t i[7] = {2, 1};
                i[k] += past[p];
                CHECK(refused(line(a, 364, NULL, 0, axis, i[0], i[1], i[2], i[3], i[4], i[5], i[6], row, 6), 17));
                CHECK(refused(line(a, 364, NULL, 0, axis, i[0], i[1], i[2], i[3], i[4], i[5], i[6], NULL, 0), 17));
            }
    CHECK(all(row, 0xaa, 6));
    for (uint64_t i = 0; i < 3; i++)
        for (uint64_t j = 0; j < 2; j++) {
            memset(row, 0xaa, 6);
            memset(column, 0xaa, 4);
            CHECK(done(line(a, 364, NULL, 0, 1, i, j, 0, 0, 0, 0, 0, row, 6), 0, 6) && memcmp(row, rows[j], 6) == 0);
            CHECK(done(line(a, 364, NULL, 0, 2, i, j, 0, 0, 0, 0, 0, column, 4), 0, 4) && memcmp(column, columns[i], 4) == 0);
            memset(row, 0xaa, 6);
            CHECK(done(line(a, 364, column, 1, 2, i, j, 0, 0, 0, 0, 0, row, 6), 0, 4));
            CHECK(memcmp(row, columns[i], 4) == 0 && all(row + 4, 0xaa, 2));
        }
    CHECK(memcmp(a, before, 364) == 0);
    memset(row, 0xaa, 6);
    vestumbral_reply cut = line(a, 363, NULL, 0, UINT64_MAX, 3, 0, 0, 0, 0, 0, 0, row, 6);
    CHECK(cut.refusal == 11 && cut.place == 108 && cut.length == 0 && cut.aligned == 0 && all(row, 0xaa, 6));
    put16(a + 46, 5); /* dim[3], which is not judged */
    CHECK(refused(line(a, 364, NULL, 0, 3, 0, 0, 0, 0, 0, 0, 0, row, 6), 17));
    CHECK(refused(line(a, 364, NULL, 0, 1, 0, 0, 1, 0, 0, 0, 0, row, 6), 17) && all(row, 0xaa, 6));
    give_back(source, a, 364);
    give_back(source, row, 6);
    give_back(source, column, 4);
}

/*
 * Each line of 2 x 3 x 4 voxels through each of its voxels, for each width that a voxel has: of a pair with five bytes before its
 * image, in memory of exactly its length; one byte less of the image file or of the buffer is refused.
 */
static void lines_of_each_width(enum source source, line_call *line)
{
    static const int types[][2] = {{2, 8}, {4, 16}, {128, 24}, {16, 32}, {64, 64}, {1536, 128}, {2048, 256}};
    static const size_t dims[3] = {2, 3, 4}, steps[3] = {1, 2, 6};
    for (size_t t = 0; t < sizeof types / sizeof *types; t++) {
        const size_t width = types[t][1] / 8, length = 5 + 24 * width;
        uint8_t *pair = take(source, 348), *image = take(source, length), before[5 + 24 * 32], header_before[348];
        header(pair, 1, (const int[]){3, 2, 3, 4}, types[t][0], types[t][1], 0x40a00000);
        for (size_t i = 0; i < length; i++)
            image[i] = i * 7 + i / 256;
        memcpy(before, image, length);
        memcpy(header_before, pair, 348);
        for (uint64_t axis = 1; axis <= 3; axis++) {
            const size_t count = dims[axis - 1], step = steps[axis - 1], bytes = count * width;
            uint8_t *out = take(source, bytes);
            for (uint64_t v = 0; v < 24; v++) {
                const uint64_t i = v % 2, j = v / 2 % 3, k = v / 6, first = v - v / step % count * step;
                memset(out, 0xaa, bytes);
                CHECK(refused(line(pair, 348, image, length, axis, i, j, k, 0, 0, 0, 0, out, bytes - 1), 22));
                CHECK(refused(line(pair, 348, image, length - 1, axis, i, j, k, 0, 0, 0, 0, out, bytes), 16));
                CHECK(refused(line(pair, 348, NULL, 0, axis, i, j, k, 0, 0, 0, 0, out, bytes), 16) && all(out, 0xaa, bytes));
                CHECK(done(line(pair, 348, image, length, axis, i, j, k, 0, 0, 0, 0, out, bytes), 0, bytes));
                unsigned wrong = 0;
                for (size_t n = 0; n < count; n++)
                    wrong += memcmp(out + n * width, before + 5 + width * (first + n * step), width) != 0;
                CHECK(wrong == 0);
            }
            CHECK(refused(line(pair, 348, image, length - 1, UINT64_MAX, 0, 0, 0, 0, 0, 0, 0, NULL, 0), 16));
            CHECK(refused(line(pair, 348, image, length - 1, axis, 2, 3, 4, 0, 0, 0, 0, out, bytes), 16));
            give_back(source, out, bytes);
        }
        CHECK(memcmp(image, before, length) == 0 && memcmp(pair, header_before, 348) == 0);
        give_back(source, pair, 348);
        give_back(source, image, length);
    }
}

/* Lines of the longest image: a refusal looks at none of it, and the last line ends with it. */
static void longest_line(line_call *line)
{
    const size_t longest = 1099511627776;
    uint8_t *image = mmap(NULL, longest, PROT_NONE, MAP_PRIVATE | MAP_ANONYMOUS | MAP_NORESERVE, -1, 0);
    uint8_t file[348], out[16384];
    if (image == MAP_FAILED) {
        puts("boundary: no address space");
        exit(2);
    }
    header(file, 1, (const int[]){3, 16384, 16384, 4096}, 2, 8, 0);
    memset(out, 0xaa, sizeof out);
    CHECK(refused(line(file, 348, image, longest - 1, 3, 0, 0, 0, 0, 0, 0, 0, out, sizeof out), 16));
    CHECK(refused(line(file, 348, image, longest, 4, 0, 0, 0, 0, 0, 0, 0, out, sizeof out), 17));
    CHECK(refused(line(file, 348, image, longest, UINT64_MAX, 0, 0, 0, 0, 0, 0, 0, out, sizeof out), 17));
    CHECK(refused(line(file, 348, image, longest, 3, 0, 0, 4096, 0, 0, 0, 0, out, sizeof out), 17));
    CHECK(refused(line(file, 348, image, longest, 3, 0, 0, 0, 0, 0, 0, 0, out, 4095), 22));
    CHECK(refused(line(file, 348, image, longest, 1, 0, 0, 0, 0, 0, 0, 0, out, 16383), 22) && all(out, 0xaa, sizeof out));
    if (mprotect(image, longest, PROT_READ) != 0) {
        puts("boundary: no memory to read");
        exit(2);
    }
    CHECK(done(line(file, 348, image, longest, 3, 16383, 16383, 0, 0, 0, 0, 0, out, sizeof out), 0, 4096));
    CHECK(all(out, 0, 4096) && all(out + 4096, 0xaa, sizeof out - 4096));
    CHECK(done(line(file, 348, image, longest, 1, 0, 16383, 4095, 0, 0, 0, 0, out, sizeof out), 0, 16384) && all(out, 0, 16384));
    munmap(image, longest);
}

/* Payloads of 0, 8 and 9 bytes at exact fits, and one byte short of them. */
static void payloads(enum source source)
{
    const size_t rows[][2] = {{0, 16}, {8, 16}, {9, 32}};
    for (size_t i = 0; i < 3; i++) {
        size_t payload = rows[i][0], size = rows[i][1], length = 364 + size;
        uint8_t *note = payload ? take(source, payload) : NULL;
        if (note)
            memset(note, 'n', payload);
        uint8_t *buffer = take(source, length - 1);
        uint8_t before[396];
        file_a(buffer);
        memset(buffer + 364, 0xaa, size - 1);
        memcpy(before, buffer, length - 1);
        CHECK(refused(vestumbral_append(buffer, length - 1, 364, 6, note, payload), 22));
        CHECK(memcmp(before, buffer, length - 1) == 0);
        give_back(source, buffer, length - 1);
        buffer = take(source, length);
        file_a(buffer);
        memset(buffer + 364, 0xaa, size);
        CHECK(edited(vestumbral_append(buffer, length, 364, 6, note, payload), length, 1));
        CHECK(memcmp(buffer + 348, (const uint8_t[]){1, 0, 0, 0, (uint8_t)size, 0, 0, 0, 6, 0, 0, 0}, 12) == 0);
        CHECK(all(buffer + 360, 'n', payload) && all(buffer + 360 + payload, 0, size - 8 - payload));
        CHECK(memcmp(buffer + 352 + size, before + 352, 12) == 0);
        vestumbral_extension extension = vestumbral_extension_at(buffer, length, 0);
        CHECK(extension.refusal == 0 && extension.start == 352 && extension.size == (int32_t)size && extension.code == 6);
        CHECK(vestumbral_read(buffer, length).data_offset == 352 + size);
        CHECK(edited(vestumbral_remove(buffer, length, length, 0), 364, 1));
        CHECK(memcmp(buffer, before, 364) == 0 && all(buffer + 364, 0, size));
        give_back(source, buffer, length);
        if (note)
            give_back(source, note, payload);
    }
}

/* Five bytes appended to A, replaced by longer and shorter ones, at exact fits. */
static void edits(enum source source)
{
    uint8_t *buffer = take(source, 396);
    uint8_t before[364];
    file_a(before);
    memcpy(buffer, before, 364);
    memset(buffer + 364, 0xaa, 32);
    CHECK(refused(vestumbral_append(buffer, 396, 364, -1, NULL, 0), 19));
    CHECK(refused(vestumbral_remove(buffer, 396, 364, 0), 18));
    CHECK(refused(vestumbral_replace(buffer, 396, 364, 0, -1, NULL, 0), 18));
    CHECK(edited(vestumbral_append(buffer, 396, 364, 4, (const uint8_t *)"hello", 5), 380, 1));
    CHECK(memcmp(buffer + 108, (const uint8_t[]){0, 0, 0xb8, 0x43}, 4) == 0);
    CHECK(done(vestumbral_voxel(buffer, 380, NULL, 0, 2, 1, 0, 0, 0, 0, 0), 378, 2));
    CHECK(memcmp(buffer + 378, before + 362, 2) == 0 && all(buffer + 380, 0xaa, 16));
    CHECK(refused(vestumbral_replace(buffer, 396, 380, 1, 4, NULL, 0), 18));
    CHECK(refused(vestumbral_replace(buffer, 396, 380, 0, 4, (const uint8_t *)"0123456789012345678901234", 25), 22));
    CHECK(edited(vestumbral_replace(buffer, 396, 380, 0, 6, (const uint8_t *)"012345678901234567890123", 24), 396, 1));
    CHECK(memcmp(buffer + 360, "012345678901234567890123", 24) == 0 && memcmp(buffer + 384, before + 352, 12) == 0);
    CHECK(edited(vestumbral_replace(buffer, 396, 396, 0, 6, (const uint8_t *)"1", 1), 380, 1));
    CHECK(memcmp(buffer + 360, "1\0\0\0\0\0\0", 8) == 0 && memcmp(buffer + 368, before + 352, 12) == 0 && all(buffer + 380, 0, 16));
    CHECK(edited(vestumbral_remove(buffer, 396, 380, 0), 364, 1));
    CHECK(memcmp(buffer, before, 364) == 0 && all(buffer + 364, 0, 32));
    CHECK(refused(vestumbral_remove(buffer, 396, 397, 0), 24));
    give_back(source, buffer, 396);
}

/* A pair's header file grows from 348 bytes; its vox_offset stays; 20 with private bytes; 21 at a 65th. */
static void pair_edits(enum source source)
{
    size_t length = 352 + 64 * 16;
    uint8_t *buffer = take(source, length);
    memset(buffer, 0x33, length);
    header(buffer, 1, (const int[]){1, 5}, 2, 8, 0x80000000);
    CHECK(edited(vestumbral_append(buffer, length, 348, 2, NULL, 0), 368, 1));
    CHECK(buffer[111] == 0x80 && all(buffer + 108, 0, 3) && get32(buffer + 348) == 1 && buffer[368] == 0x33);
    for (uint64_t i = 1; i < 64; i++)
        CHECK(edited(vestumbral_append(buffer, length, 352 + 16 * i, 2, buffer, 0), 368 + 16 * i, 1));
    CHECK(vestumbral_read(buffer, length).extensions == 64);
    CHECK(vestumbral_extension_at(buffer, length, 63).start == 1360);
    REFUSED(vestumbral_extension_at(buffer, length, 64), 18, 0);
    CHECK(refused(vestumbral_append(buffer, length, length, 2, NULL, 0), 21));
    for (uint64_t i = 64; i > 0; i--)
        CHECK(edited(vestumbral_remove(buffer, length, 352 + 16 * i, i / 2), 336 + 16 * i, 1));
    CHECK(all(buffer + 348, 0, length - 348));
    CHECK(refused(vestumbral_append(buffer, length, 353, 2, NULL, 0), 20));
    REFUSED(vestumbral_read(buffer, 350), 12, 348);
    give_back(source, buffer, length);
}

/*
 * vox_offset on either side of a multiple of 16, of a file with one byte of image: read whole and in pieces, swapped, and appended to.
 * A single file takes a note only where its image begins at 352.
 */
static void alignments(enum source source)
{
    static const struct { int pair; uint32_t offset, aligned; } rows[] = {
        {0, 352, 1}, {0, 353, 0}, {0, 356, 0}, {0, 360, 0}, {0, 367, 0}, {0, 368, 1}, {1, 0, 1}, {1, 1, 0}, {1, 8, 0}, {1, 15, 0},
        {1, 16, 1}, {1, 17, 0}, {1, 24, 0}, {1, 134217720, 0}, {1, 134217728, 1}};
    for (size_t i = 0; i < sizeof rows / sizeof *rows; i++) {
        const uint32_t offset = rows[i].offset, aligned = rows[i].aligned;
        const size_t length = rows[i].pair ? 352 : offset + 1;
        uint8_t *buffer = take(source, length + 16), image[32] = {0};
        memset(buffer, 0, length + 16);
        header(buffer, rows[i].pair, (const int[]){1, 1}, 2, 8, float_bits(offset));
        for (int turn = 0; turn < 2; turn++) {
            vestumbral_file file = vestumbral_read(buffer, length);
            CHECK(file.refusal == 0 && file.data_offset == offset && file.aligned == aligned);
            as_whole(fed(vestumbral_pieces_start(), buffer, length), buffer, length, 0);
            if (offset < 1024)
                CHECK(done(vestumbral_swap(buffer, length, image, sizeof image), 0, 0));
        }
        vestumbral_reply reply = vestumbral_append(buffer, length + 16, length, 6, NULL, 0);
        if (rows[i].pair || offset == 352) {
            CHECK(edited(reply, length + 16, aligned) && vestumbral_read(buffer, length + 16).aligned == aligned);
            CHECK(edited(vestumbral_remove(buffer, length + 16, length + 16, 0), length, aligned));
        } else {
            CHECK(refused(reply, 20));
        }
        give_back(source, buffer, length + 16);
    }
}

/* A pair's header file of 348 bytes in a buffer with other bytes behind it: 1,0,0,0 at an exact fit, and one byte short of it. */
static void bare_pairs(enum source source)
{
    static const uint8_t fresh[20] = {1, 0, 0, 0, 16, 0, 0, 0, 6, 0, 0, 0, 'h', 'e', 'l', 'l', 'o', 0, 0, 0};
    for (size_t length = 348; length <= 369; length++) {
        uint8_t *buffer = take(source, length), before[369];
        memset(buffer, 0xee, length);
        header(buffer, 1, (const int[]){1, 5}, 2, 8, 0);
        memcpy(before, buffer, length);
        vestumbral_reply reply = vestumbral_append(buffer, length, 348, 6, (const uint8_t *)"hello", 5);
        if (length < 368) {
            CHECK(refused(reply, 22) && memcmp(buffer, before, length) == 0);
        } else {
            CHECK(edited(reply, 368, 1) && memcmp(buffer, before, 348) == 0 && memcmp(buffer + 348, fresh, 20) == 0);
            CHECK(all(buffer + 368, 0xee, length - 368));
            CHECK(edited(vestumbral_remove(buffer, length, 368, 0), 352, 1) && all(buffer + 348, 0, 20));
        }
        give_back(source, buffer, length);
    }
}

static int extender_is(const uint8_t *file, uint8_t first, const uint8_t *reserved)
{
    return file[348] == first && memcmp(file + 349, reserved, 3) == 0;
}

/* The reserved bytes of the extender in memory of exactly the file's length: no call judges them, and all keep them. */
static void reserved_bytes(enum source source)
{
    static const uint8_t extenders[][4] = {{1, 0, 0, 7}, {2, 9, 9, 9}, {255, 255, 255, 255}};
    for (size_t i = 0; i < sizeof extenders / sizeof *extenders; i++) {
        uint8_t first = extenders[i][0], *file = take(source, 352), *out = take(source, 352), image[5] = {0}, out_image[5];
        const uint8_t *reserved = extenders[i] + 1;
        header(file, 1, (const int[]){3, 5, 1, 1}, 2, 8, 0);
        memcpy(file + 348, extenders[i], 4);
        REFUSED(vestumbral_read(file, 352), 13, 352);
        for (size_t length = 349; length < 352; length++) {
            uint8_t *cut = take(source, length);
            memcpy(cut, file, length);
            REFUSED(vestumbral_read(cut, length), 12, 348);
            as_whole(fed(vestumbral_pieces_start(), cut, length), cut, length, 0);
            give_back(source, cut, length);
        }
        file[348] = 0;
        vestumbral_file read = vestumbral_read(file, 352);
        CHECK(read.refusal == 0 && read.extensions == 0);
        as_whole(fed(vestumbral_pieces_start(), file, 352), file, 352, 0);
        CHECK(turned(vestumbral_turn(file, 352, image, 5, 1, 2, 3, 1, 0, 0, out, 352, out_image, 5), 352, 5));
        CHECK(extender_is(out, 0, reserved));
        CHECK(done(vestumbral_swap(file, 352, image, 5), 0, 0) && extender_is(file, 0, reserved));

        uint8_t *buffer = take(source, 384);
        memcpy(buffer, file, 352);
        CHECK(edited(vestumbral_append(buffer, 384, 352, 4, NULL, 0), 368, 1) && extender_is(buffer, 1, reserved));
        buffer[348] = first;
        CHECK(edited(vestumbral_append(buffer, 384, 368, 4, NULL, 0), 384, 1) && extender_is(buffer, 1, reserved));
        buffer[348] = first;
        CHECK(vestumbral_read(buffer, 384).extensions == 2 && vestumbral_extension_at(buffer, 384, 1).start == 368);
        as_whole(fed(vestumbral_pieces_start(), buffer, 384), buffer, 384, 1);
        CHECK(refused(vestumbral_append(buffer, 384, 384, 4, NULL, 0), 22) && extender_is(buffer, first, reserved));
        CHECK(edited(vestumbral_replace(buffer, 384, 384, 1, 6, image, 5), 384, 1) && extender_is(buffer, 1, reserved));
        buffer[348] = first;
        CHECK(edited(vestumbral_remove(buffer, 384, 384, 1), 368, 1) && extender_is(buffer, 1, reserved));
        buffer[348] = 0;
        CHECK(refused(vestumbral_append(buffer, 384, 368, 4, NULL, 0), 20) && extender_is(buffer, 0, reserved));
        buffer[348] = first;
        CHECK(edited(vestumbral_remove(buffer, 384, 368, 0), 352, 1) && extender_is(buffer, 0, reserved));
        CHECK(memcmp(buffer, file, 352) == 0 && all(buffer + 352, 0, 32));
        give_back(source, buffer, 384);
        give_back(source, file, 352);
        give_back(source, out, 352);
    }
}

typedef vestumbral_reply swap_call(uint8_t *, size_t, uint8_t *, size_t);

static void swaps(enum source source, swap_call *swap)
{
    uint8_t *a = take(source, 364);
    uint8_t before[364];
    file_a(before);
    memcpy(a, before, 364);
    CHECK(done(swap(a, 364, NULL, 0), 0, 0));
    vestumbral_file file = vestumbral_read(a, 364);
    CHECK(file.refusal == 0 && file.big_endian == 1 && file.dim[1] == 3 && file.data_offset == 352 && file.data_bytes == 12);
    CHECK(a[352] == 2 && a[353] == 1 && a[363] == 11 && memcmp(a + 344, before + 344, 8) == 0);
    CHECK(done(swap(a, 364, a, 0), 0, 0));
    CHECK(memcmp(a, before, 364) == 0);
    give_back(source, a, 364);

    /* the unit is not the voxel: COMPLEX64 turns by fours, RGB24 and RGBA32 not at all */
    const int rows[][3] = {{32, 64, 4}, {128, 24, 1}, {2304, 32, 1}, {1792, 128, 8}, {2048, 256, 16}};
    for (size_t i = 0; i < sizeof rows / sizeof *rows; i++) {
        size_t voxel = rows[i][1] / 8, unit = rows[i][2];
        uint8_t *pair = take(source, 348), *image = take(source, voxel + 1);
        header(pair, 1, (const int[]){1, 1}, rows[i][0], rows[i][1], 0x3f800000);
        for (size_t j = 0; j <= voxel; j++)
            image[j] = j;
        CHECK(refused(swap(pair, 348, image, voxel), 16) && pair[0] == 0x5c && image[voxel] == voxel);
        CHECK(done(swap(pair, 348, image, voxel + 1), 0, 0));
        CHECK(image[0] == 0);
        for (size_t j = 0; j < voxel; j++)
            CHECK(image[1 + j] == 1 + j / unit * unit + (unit - 1 - j % unit));
        CHECK(done(vestumbral_voxel(pair, 348, image, voxel + 1, 0, 0, 0, 0, 0, 0, 0), 1, voxel));
        CHECK(refused(vestumbral_voxel(pair, 348, image, 1, 0, 0, 0, 0, 0, 0, 0), 16));
        CHECK(refused(vestumbral_voxel(pair, 348, NULL, 0, 0, 0, 0, 0, 0, 0, 0), 16));
        give_back(source, pair, 348);
        give_back(source, image, voxel + 1);
    }
}

/*
 * Every number of units up to some blocks of them, so that each number is left behind the last whole word and block; of a single file
 * whose bytes end with the image, and of an image file whose front and tail stay. One byte less is refused.
 */
static void units(enum source source, swap_call *swap)
{
    const int rows[][3] = {{4, 16, 2}, {16, 32, 4}, {64, 64, 8}, {1536, 128, 16}};
    for (size_t i = 0; i < sizeof rows / sizeof *rows; i++)
        for (size_t count = 1; count <= 72; count++) {
            const size_t unit = rows[i][2], bytes = count * unit, front = 7, tail = 5;
            uint8_t *single = take(source, 352 + bytes), *pair = take(source, 348), *image = take(source, front + bytes + tail);
            header(single, 0, (const int[]){1, (int)count}, rows[i][0], rows[i][1], 0x43b00000);
            memset(single + 348, 0, 4);
            header(pair, 1, (const int[]){1, (int)count}, rows[i][0], rows[i][1], 0x40e00000);
            for (size_t j = 0; j < bytes; j++)
                single[352 + j] = image[front + j] = 31 * j + j / 256;
            memset(image, 0xa5, front);
            memset(image + front + bytes, 0x5a, tail);
            vestumbral_reply cut = swap(single, 351 + bytes, NULL, 0);
            CHECK(cut.refusal == 11 && cut.place == 108 && refused(swap(pair, 348, image, front + bytes - 1), 16));
            CHECK(done(swap(single, 352 + bytes, NULL, 0), 0, 0) && done(swap(pair, 348, image, front + bytes + tail), 0, 0));
            for (size_t j = 0; j < bytes; j++) {
                const size_t from = j / unit * unit + (unit - 1 - j % unit);
                const uint8_t byte = 31 * from + from / 256;
                CHECK(single[352 + j] == byte && image[front + j] == byte);
            }
            CHECK(all(image, 0xa5, front) && all(image + front + bytes, 0x5a, tail));
            give_back(source, single, 352 + bytes);
            give_back(source, pair, 348);
            give_back(source, image, front + bytes + tail);
        }
}

/* Document 004's file: dim[3] is 7, slice_duration 0.1, slices 1 to 5; without slice_code. */
static void file_004(uint8_t *file)
{
    header(file, 1, (const int[]){3, 1, 1, 7}, 2, 8, 0);
    file[39] = 0x39;
    put16(file + 74, 1);
    put16(file + 120, 5);
    put32(file + 132, 0x3dcccccd);
}

/* Document 004's table; the times by rank in binary32. */
static void slices(enum source source)
{
    static const uint8_t ranks[6][5] = {{0, 1, 2, 3, 4}, {4, 3, 2, 1, 0}, {0, 3, 1, 4, 2}, /* SEQ_INC, SEQ_DEC, ALT_INC */
                                        {2, 4, 1, 3, 0}, {2, 0, 3, 1, 4}, {4, 1, 3, 0, 2}}; /* ALT_DEC, ALT_INC2, ALT_DEC2 */
    static const uint32_t times[5] = {0, 0x3dcccccd, 0x3e4ccccd, 0x3e99999a, 0x3ecccccd};
    uint8_t *file = take(source, 348);
    file_004(file);
    CHECK(vestumbral_slice_at(file, 348, 7).refusal == 0); /* slice_code 0: unstated, and no 17 */
    for (int code = 1; code <= 6; code++) {
        file[122] = code;
        for (uint64_t s = 0; s < 7; s++) {
            vestumbral_slice slice = vestumbral_slice_at(file, 348, s);
            unsigned rank = s >= 1 && s <= 5 ? ranks[code - 1][s - 1] : 0;
            CHECK(slice.refusal == 0 && slice.place == 0 && slice.state == (s >= 1 && s <= 5 ? 2u : 1u));
            CHECK(slice.rank == rank && float_bits(slice.seconds) == times[rank]);
        }
        REFUSED(vestumbral_slice_at(file, 348, 7), 17, 0);
    }
    give_back(source, file, 348);
}

/* Ranks that are none of five slices, some of which a narrower number would take for one. */
static const uint64_t no_ranks[] = {5, 6, 7, 256, 65535, 65536, 65537, 4294967296, 4294967297, UINT64_MAX / 2 + 1, UINT64_MAX};

/* Whether the file answers ranks 0 to 4 with these slices and refuses every other rank; for NULL, whether all are unstated. */
static int has_ranks(const uint8_t *file, const uint8_t *by_rank)
{
    int right = 1;
    for (uint64_t rank = 0; rank < 5; rank++)
        right &= ranked(vestumbral_slice_of_rank(file, 348, rank), by_rank != NULL, by_rank ? by_rank[rank] : 0);
    for (size_t i = 0; i < sizeof no_ranks / sizeof *no_ranks; i++) {
        vestumbral_ranked answer = vestumbral_slice_of_rank(file, 348, no_ranks[i]);
        right &= by_rank ? not_ranked(answer, 17, 0) : ranked(answer, 0, 0);
    }
    return right;
}

/* Document 004's table backwards, whatever the time; then each field past what is stated, where no rank is refused. */
static void ranks(enum source source)
{
    static const uint8_t table[6][5] = {{1, 2, 3, 4, 5}, {5, 4, 3, 2, 1}, {1, 3, 5, 2, 4}, /* SEQ_INC, SEQ_DEC, ALT_INC */
                                        {5, 3, 1, 4, 2}, {2, 4, 1, 3, 5}, {4, 2, 5, 3, 1}}; /* ALT_DEC, ALT_INC2, ALT_DEC2 */
    static const uint32_t stated[] = {0x3dcccccd, 1, 0x007fffff, 0x7f000000, 0x7f7fffff}; /* by the last two times are infinite */
    static const uint32_t unstated[] = {0, 0x80000000, 0x80000001, 0xbdcccccd, 0x7f800000, 0x7f800001, 0x7fc00000, 0xff800000};
    static const struct { int at, value; } fields[] = {{74, 0xffff}, {74, 0x8000}, {74, 5}, {74, 6}, {120, 1}, {120, 0}, {120, 7},
                                                       {120, 0x7fff}, {120, 0xffff}, {40, 2}};
    uint8_t *file = take(source, 348), before[348];
    file_004(file);
    CHECK(has_ranks(file, NULL)); /* slice_code 0 */
    for (int code = 1; code <= 6; code++) {
        file[122] = code;
        for (size_t i = 0; i < sizeof stated / sizeof *stated; i++) {
            put32(file + 132, stated[i]);
            memcpy(before, file, 348);
            CHECK(has_ranks(file, table[code - 1]) && memcmp(file, before, 348) == 0);
        }
        for (size_t i = 0; i < sizeof unstated / sizeof *unstated; i++) {
            put32(file + 132, unstated[i]);
            CHECK(has_ranks(file, NULL));
        }
        put32(file + 132, 0x3dcccccd);
        for (size_t i = 0; i < sizeof fields / sizeof *fields; i++) {
            memcpy(before, file, 348);
            put16(file + fields[i].at, fields[i].value);
            CHECK(has_ranks(file, NULL));
            memcpy(file, before, 348);
        }
        file[39] = 0xcf; /* slice_dim 0 */
        CHECK(has_ranks(file, NULL));
        file[39] = 0xf0;
        CHECK(has_ranks(file, table[code - 1]));
    }
    file[122] = 7;
    CHECK(has_ranks(file, NULL));
    give_back(source, file, 348);
}

/* The longest axis: all of its slices, of which each has its turn. */
static void most_ranks(enum source source)
{
    static uint8_t had[32767];
    uint8_t *file = take(source, 348);
    header(file, 1, (const int[]){1, 32767}, 2, 8, 0);
    file[39] = 0x10;
    put16(file + 120, 32766);
    put32(file + 132, 0x7f7fffff);
    for (int code = 1; code <= 6; code++) {
        unsigned wrong = 0;
        file[122] = code;
        memset(had, 0, sizeof had);
        for (uint64_t rank = 0; rank < 32767; rank++) {
            vestumbral_ranked answer = vestumbral_slice_of_rank(file, 348, rank);
            wrong += answer.refusal != 0 || answer.stated != 1 || answer.slice > 32766 || had[answer.slice]++;
        }
        CHECK(wrong == 0);
        CHECK(not_ranked(vestumbral_slice_of_rank(file, 348, 32767), 17, 0));
        CHECK(not_ranked(vestumbral_slice_of_rank(file, 348, 32768), 17, 0));
        CHECK(not_ranked(vestumbral_slice_of_rank(file, 348, UINT64_MAX), 17, 0));
    }
    give_back(source, file, 348);
}

/* A file that reading refuses, its timing stated and, by slice_code 0, not; a rank that it would have, and one that none has. */
static void refuses_ranks(uint8_t *file, size_t length, uint64_t refusal, uint64_t place)
{
    for (int code = 0; code < 2; code++) {
        file[122] = code;
        CHECK(not_ranked(vestumbral_slice_of_rank(file, length, 0), refusal, place));
        CHECK(not_ranked(vestumbral_slice_of_rank(file, length, UINT64_MAX), refusal, place));
    }
}

/* Each refusal of reading, of document 004's file with a field changed and then with bytes behind its header. */
static void ranks_after_reading(enum source source)
{
    static const struct { int at, value, refusal, place; } fields[] = {
        {40, 0, 2, 40}, {40, 8, 2, 40}, {0, 347, 3, 0}, {344, 0x316e, 4, 344}, {42, 0, 5, 42}, {46, 0x8000, 5, 46}, {70, 1, 6, 70},
        {72, 16, 7, 72}, {110, 0x3f00, 8, 108}, {110, 0xbf80, 8, 108}, {110, 0x7f80, 8, 108}, {110, 0x4d01, 9, 108}};
    const size_t most = 352 + 65 * 16;
    uint8_t *file = take(source, 348);
    for (size_t i = 0; i < sizeof fields / sizeof *fields; i++) {
        file_004(file);
        put16(file + fields[i].at, fields[i].value);
        refuses_ranks(file, 348, fields[i].refusal, fields[i].place);
    }
    file_004(file);
    memcpy(file + 344, "n+1", 4);
    put32(file + 108, 0x43b00000);
    refuses_ranks(file, 348, 11, 108);
    file_004(file);
    put16(file + 42, 16384);
    put16(file + 44, 16384);
    put16(file + 46, 4097);
    refuses_ranks(file, 348, 10, 40);
    give_back(source, file, 348);

    file = take(source, most);
    memset(file, 0, most);
    file_004(file);
    file[348] = 1;
    for (size_t length = 349; length < 352; length++)
        refuses_ranks(file, length, 12, 348);
    refuses_ranks(file, 352, 13, 352);
    for (int i = 0; i < 65; i++)
        put32(file + 352 + 16 * i, 16);
    refuses_ranks(file, most, 15, 1376);
    refuses_ranks(file, most - 24, 13, 1360);
    put32(file + 372, 0x80000000);
    refuses_ranks(file, 384, 14, 372);
    give_back(source, file, most);
}

static void positions(enum source source)
{
    static const uint32_t srow[12] = {0x3f800000, 0, 0, 0xc2b40000, 0, 0xbf800000, 0, 0x42fc0000, /* i - 90, -j + 126 */
                                      0xbf09b16b, 0x40064993, 0xc07eebf5, 0xbedfb1ad};
    uint8_t *file = take(source, 348);
    header(file, 1, (const int[]){3, 300, 300, 300}, 2, 8, 0);
    for (int i = 0; i < 12; i++)
        put32(file + 280 + 4 * i, srow[i]);
    REFUSED(vestumbral_position_of(file, 348, 185, 206, 59), 23, 0);
    REFUSED(vestumbral_position_of(file, 348, 300, 0, 0), 17, 0);
    put16(file + 254, 1);
    vestumbral_position position = vestumbral_position_of(file, 348, 185, 206, 59);
    REFUSED(position, 0, 0);
    CHECK(float_bits(position.x) == 0x42be0000 && float_bits(position.y) == 0xc2a00000 && float_bits(position.z) == 0x42c2947a);
    REFUSED(vestumbral_position_of(file, 348, 0, 0, UINT64_MAX), 17, 0);
    put32(file + 280, 0x7f800000);
    REFUSED(vestumbral_position_of(file, 348, 0, 0, 0), 23, 0);
    give_back(source, file, 348);
}

/* Every turn of 2 x 3 x 4 voxels in memory of exactly their length, for each width that a voxel has. */
static void turns_of_each_width(enum source source)
{
    static const int types[][2] = {{2, 8}, {4, 16}, {128, 24}, {16, 32}, {64, 64}, {1536, 128}, {2048, 256}};
    static const uint64_t orders[][3] = {{1, 2, 3}, {1, 3, 2}, {2, 1, 3}, {2, 3, 1}, {3, 1, 2}, {3, 2, 1}};
    static const unsigned dims[3] = {2, 3, 4};
    for (size_t t = 0; t < sizeof types / sizeof *types; t++) {
        size_t width = types[t][1] / 8, length = 24 * width;
        uint8_t *file = take(source, 348), *image = take(source, length);
        uint8_t *out = take(source, 348), *out_image = take(source, length);
        header(file, 1, (const int[]){3, 2, 3, 4}, types[t][0], types[t][1], 0);
        for (size_t i = 0; i < length; i++)
            image[i] = i * 7 + i / 256;
        for (unsigned turn = 0; turn < 48; turn++) {
            const uint64_t *axes = orders[turn / 8];
            memset(out, 0xaa, 348);
            memset(out_image, 0xaa, length);
            vestumbral_turned answer = vestumbral_turn(file, 348, image, length, axes[0], axes[1], axes[2], turn & 1, turn & 2,
                                                       turn & 4, out, 348, out_image, length);
            CHECK(turned(answer, 348, length));
            unsigned wrong = 0;
            for (unsigned v = 0; v < 24; v++) {
                unsigned n = dims[axes[0] - 1], m = dims[axes[1] - 1], at[3] = {v % n, v / n % m, v / n / m}, old[3];
                for (int k = 0; k < 3; k++) {
                    unsigned o = axes[k] - 1;
                    old[o] = turn >> o & 1 ? dims[o] - 1 - at[k] : at[k];
                }
                wrong += memcmp(out_image + width * v, image + width * (old[0] + 2 * (old[1] + 3 * old[2])), width) != 0;
            }
            CHECK(wrong == 0);
            for (int k = 0; k < 3; k++)
                CHECK(out[42 + 2 * k] == dims[axes[k] - 1]);
        }
        give_back(source, file, 348);
        give_back(source, image, length);
        give_back(source, out, 348);
        give_back(source, out_image, length);
    }
}

/* A single file of 3 x 2 x 2 voxels, a quarter turn with old axis 2 reversed: exact fits and one byte short, NULL for the image. */
static void turns(enum source source)
{
    static const uint8_t voxels[12] = {4, 1, 5, 2, 6, 3, 10, 7, 11, 8, 12, 9};
    uint8_t *file = take(source, 370), *out = take(source, 370), *one = take(source, 1), before[370], after[370];
    header(file, 0, (const int[]){3, 3, 2, 2}, 2, 8, float_bits(352));
    put32(file + 348, 0);
    for (int i = 0; i < 18; i++)
        file[352 + i] = i + 1; /* six bytes after the image */
    for (int i = 0; i < 4; i++)
        put32(file + 76 + 4 * i, float_bits(i + 1));
    file[39] = 0x39, file[122] = 3, file[252] = 1, file[254] = 1;
    for (int i = 0; i < 12; i++)
        put32(file + 280 + 4 * i, float_bits(i + 1));
    memcpy(before, file, 370);
    memcpy(after, file, 370);
    put16(after + 42, 2);
    put16(after + 44, 3);
    put32(after + 80, float_bits(3));
    put32(after + 84, float_bits(2));
    after[39] = after[122] = after[252] = 0;
    for (int row = 0; row < 3; row++) {
        put32(after + 280 + 16 * row, float_bits(-4 * row - 2));
        put32(after + 284 + 16 * row, float_bits(4 * row + 1));
        put32(after + 292 + 16 * row, float_bits(8 * row + 6)); /* 4 row + 4 and the old column, 4 row + 2 */
    }
    memcpy(after + 352, voxels, 12);
    *one = 0xaa;
    memset(out, 0xaa, 370);
    CHECK(not_turned(vestumbral_turn(file, 370, NULL, 0, 2, 1, 3, 0, 1, 0, NULL, 0, NULL, 0), 22));
    CHECK(not_turned(vestumbral_turn(file, 370, NULL, 0, 2, 1, 3, 0, 1, 0, out, 369, NULL, 0), 22));
    CHECK(not_turned(vestumbral_turn(file, 370, NULL, 0, 2, 1, 2, 0, 1, 0, out, 370, NULL, 0), 30));
    CHECK(not_turned(vestumbral_turn(file, 370, NULL, 0, 0, 1, 2, 0, 1, 0, NULL, 0, NULL, 0), 30));
    CHECK(not_turned(vestumbral_turn(file, 370, NULL, 0, UINT64_MAX, 1, 3, 0, 1, 0, out, 370, NULL, 0), 30));
    CHECK(all(out, 0xaa, 370));
    CHECK(turned(vestumbral_turn(file, 370, NULL, 0, 2, 1, 3, 0, 1, 0, out, 370, NULL, 0), 370, 0));
    CHECK(memcmp(out, after, 370) == 0 && memcmp(file, before, 370) == 0);
    memset(out, 0xaa, 370);
    CHECK(turned(vestumbral_turn(file, 364, one, 1, 2, 1, 3, 0, UINT64_MAX, 0, out, 370, one, 1), 364, 0));
    CHECK(memcmp(out, after, 364) == 0 && all(out + 364, 0xaa, 6) && *one == 0xaa);
    put16(file + 40, 2); /* dim[0] */
    CHECK(not_turned(vestumbral_turn(file, 370, NULL, 0, 1, 1, 1, 0, 0, 0, NULL, 0, NULL, 0), 29));
    put16(file + 40, 3);
    put32(file + 288, 0x7f800000); /* srow_x[2] */
    CHECK(not_turned(vestumbral_turn(file, 370, NULL, 0, 1, 2, 3, 0, 0, 0, NULL, 0, NULL, 0), 23));
    put16(file + 254, 0); /* sform_code */
    CHECK(turned(vestumbral_turn(file, 370, NULL, 0, 1, 2, 3, 0, 0, 1, out, 370, NULL, 0), 370, 0));
    CHECK(memcmp(out + 280, file + 280, 48) == 0);
    REFUSED(vestumbral_turn(file, 363, NULL, 0, 1, 2, 3, 0, 0, 0, out, 370, NULL, 0), 11, 108);
    give_back(source, file, 370);
    give_back(source, out, 370);
    give_back(source, one, 1);
}

/* A pair of 2 x 1 x 2 voxels of two bytes, one byte before its image and two after it, with axes 1 and 3 exchanged. */
static void pair_turns(enum source source)
{
    static const uint8_t before[11] = {1, 2, 3, 4, 5, 6, 7, 8, 9, 10, 11}, after[11] = {1, 4, 5, 8, 9, 2, 3, 6, 7, 10, 11};
    uint8_t *file = take(source, 348), *image = take(source, 11), *out = take(source, 348), *out_image = take(source, 11);
    header(file, 1, (const int[]){3, 2, 1, 2}, 4, 16, 0x3f800000);
    memcpy(image, before, 11);
    memset(out, 0xaa, 348);
    memset(out_image, 0xaa, 11);
    CHECK(not_turned(vestumbral_turn(file, 348, NULL, 0, 3, 2, 1, 1, 0, 0, NULL, 0, NULL, 0), 16));
    CHECK(not_turned(vestumbral_turn(file, 348, image, 8, 3, 2, 1, 1, 0, 0, out, 348, out_image, 11), 16));
    CHECK(not_turned(vestumbral_turn(file, 348, image, 11, 3, 2, 3, 1, 0, 0, NULL, 0, NULL, 0), 30));
    CHECK(not_turned(vestumbral_turn(file, 348, image, 11, 3, 2, 1, 1, 0, 0, NULL, 0, out_image, 11), 22));
    CHECK(not_turned(vestumbral_turn(file, 348, image, 11, 3, 2, 1, 1, 0, 0, out, 348, NULL, 0), 22));
    CHECK(not_turned(vestumbral_turn(file, 348, image, 11, 3, 2, 1, 1, 0, 0, out, 347, out_image, 11), 22));
    CHECK(not_turned(vestumbral_turn(file, 348, image, 11, 3, 2, 1, 1, 0, 0, out, 348, out_image, 10), 22));
    CHECK(all(out, 0xaa, 348) && all(out_image, 0xaa, 11));
    CHECK(turned(vestumbral_turn(file, 348, image, 9, 3, 2, 1, 1, 0, 0, out, 348, out_image, 11), 348, 9));
    CHECK(memcmp(out, file, 348) == 0 && memcmp(out_image, after, 9) == 0 && all(out_image + 9, 0xaa, 2));
    CHECK(turned(vestumbral_turn(file, 348, image, 11, 3, 2, 1, 1, 0, 0, out, 348, out_image, 11), 348, 11));
    CHECK(memcmp(out_image, after, 11) == 0 && memcmp(image, before, 11) == 0);
    CHECK(turned(vestumbral_turn(out, 348, out_image, 11, 3, 2, 1, 0, 0, 1, file, 348, image, 11), 348, 11));
    CHECK(memcmp(image, before, 11) == 0);
    give_back(source, file, 348);
    give_back(source, image, 11);
    give_back(source, out, 348);
    give_back(source, out_image, 11);
}

/* The longest image of a pair, in memory that may not be touched: a refusal looks at none of it. */
static void longest_turn(void)
{
    const size_t longest = 1099511627776;
    uint8_t *closed = mmap(NULL, 2 * longest, PROT_NONE, MAP_PRIVATE | MAP_ANONYMOUS | MAP_NORESERVE, -1, 0);
    if (closed == MAP_FAILED) {
        puts("boundary: no address space");
        exit(2);
    }
    uint8_t file[348], out[348], *out_image = closed + longest;
    header(file, 1, (const int[]){3, 16384, 16384, 4096}, 2, 8, 0);
    CHECK(not_turned(vestumbral_turn(file, 348, closed, longest - 1, 1, 2, 3, 0, 0, 0, out, 348, out_image, longest), 16));
    CHECK(not_turned(vestumbral_turn(file, 348, closed, longest, 3, 3, 3, 0, 0, 0, out, 348, out_image, longest), 30));
    CHECK(not_turned(vestumbral_turn(file, 348, closed, longest, 3, 2, 1, 0, 0, 0, out, 347, out_image, longest), 22));
    CHECK(not_turned(vestumbral_turn(file, 348, closed, longest, 3, 2, 1, 0, 0, 0, out, 348, out_image, longest - 1), 22));
    CHECK(not_turned(vestumbral_turn(file, 348, closed, longest, 3, 2, 1, 0, 0, 0, out, 348, NULL, 0), 22));
    munmap(closed, 2 * longest);
}

/*
 * A file with three extensions in pieces of every length up to its own, each in memory of its own; asked after each. Its payloads
 * and its image are a5, a byte that no number of a state has but `taken`.
 */
static void pieces_of_each_length(enum source source)
{
    const size_t numbers = offsetof(vestumbral_pieces, at);
    uint8_t file[352 + 96 + 12];
    header(file, 0, (const int[]){2, 3, 2}, 4, 16, float_bits(448));
    memset(file + 348, 0xa5, sizeof file - 348);
    put32(file + 348, 1);
    for (uint32_t i = 0, at = 352; i < 3; at += 16 * ++i) {
        put32(file + at, 16 * (i + 1));
        put32(file + at + 4, 2 * i);
    }
    for (size_t length = 1; length <= sizeof file; length++) {
        vestumbral_pieces pieces = vestumbral_pieces_start();
        for (size_t at = 0; at < sizeof file; at += length) {
            size_t rest = sizeof file - at < length ? sizeof file - at : length;
            uint8_t *piece = take(source, rest);
            memcpy(piece, file + at, rest);
            pieces = fed(pieces, piece, rest);
            CHECK(memcmp(piece, file + at, rest) == 0);
            give_back(source, piece, rest);
            as_whole(pieces, file, at + rest, at % 4);
            CHECK(memchr((const uint8_t *)&pieces + numbers, 0xa5, sizeof pieces - numbers) == NULL);
        }
        vestumbral_file answer = vestumbral_pieces_file(fed(pieces, NULL, 0));
        REFUSED(answer, 0, 0);
        CHECK(answer.data_offset == 448 && answer.data_bytes == 12 && answer.extensions == 3);
        vestumbral_extension last = vestumbral_pieces_extension_at(pieces, 2);
        CHECK(last.refusal == 0 && last.start == 400 && last.size == 48 && last.code == 4);
        REFUSED(vestumbral_pieces_extension_at(pieces, 3), 18, 0);
    }
}

static void past_total(vestumbral_pieces pieces, const uint8_t *piece, size_t length)
{
    vestumbral_taken taken = vestumbral_pieces_take(pieces, piece, length);
    REFUSED(taken, 25, 0);
    CHECK(memcmp(&taken.pieces, &pieces, sizeof pieces) == 0);
}

/* The longest image behind a header, with zeros after it up to 2199023255552 bytes, and one byte past them. */
static void total(void)
{
    const size_t many = (size_t)1 << 32, rest = many - 352;
    const uint8_t *zeros = mmap(NULL, many, PROT_READ, MAP_PRIVATE | MAP_ANONYMOUS | MAP_NORESERVE, -1, 0);
    if (zeros == MAP_FAILED) {
        puts("boundary: no address space");
        exit(2);
    }
    uint8_t file[352] = {0};
    header(file, 0, (const int[]){3, 16384, 16384, 4096}, 2, 8, 0x43b00000);
    vestumbral_pieces pieces = fed(vestumbral_pieces_start(), file, 352);
    for (int i = 1; i < 512; i++) {
        REFUSED(vestumbral_pieces_file(pieces), i > 256 ? 0 : 11, i > 256 ? 0 : 108);
        pieces = fed(pieces, zeros, many);
    }
    past_total(pieces, zeros, rest + 1);
    past_total(pieces, zeros, many);
    pieces = fed(pieces, zeros, rest - 1);
    past_total(pieces, zeros, 2);
    pieces = fed(pieces, zeros, 1);
    past_total(pieces, zeros, 1);
    pieces = fed(fed(pieces, zeros, 0), NULL, 0);
    vestumbral_file answer = vestumbral_pieces_file(pieces);
    REFUSED(answer, 0, 0);
    CHECK(answer.data_offset == 352 && answer.data_bytes == 1099511627776 && answer.extensions == 0);
    REFUSED(vestumbral_pieces_extension_at(pieces, 0), 18, 0);
    munmap((void *)zeros, many);
}

int main(void)
{
    uint8_t one = 0x5c;
    too_short(NULL, 0);
    too_short(&one, 1);
    CHECK(one == 0x5c);
    image_limit();
    blank_records();
    records();
    wrong_steps();
    total();
    longest_line(vestumbral_line);
    longest_line(vestumbral_line_by_voxel);
    longest_turn();
    for (enum source source = HEAP; source <= FENCE_BEFORE; source++) {
        uint8_t *byte = take(source, 1);
        *byte = 1;
        too_short(byte, 1);
        too_short(byte + 1, 0);
        give_back(source, byte, 1);
        reading(source);
        offsets(source);
        steps(source);
        lines(source, vestumbral_line);
        lines(source, vestumbral_line_by_voxel);
        lines_of_each_width(source, vestumbral_line);
        lines_of_each_width(source, vestumbral_line_by_voxel);
        payloads(source);
        edits(source);
        pair_edits(source);
        alignments(source);
        bare_pairs(source);
        reserved_bytes(source);
        swaps(source, vestumbral_swap);
        swaps(source, vestumbral_swap_by_unit);
        units(source, vestumbral_swap);
        units(source, vestumbral_swap_by_unit);
        slices(source);
        ranks(source);
        most_ranks(source);
        ranks_after_reading(source);
        positions(source);
        pieces_of_each_length(source);
        turns(source);
        pair_turns(source);
        turns_of_each_width(source);
    }
    printf("boundary: %u checks, %u failed\n", checks, failed);
    return failed != 0;
}
