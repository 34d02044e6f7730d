/*
 * The numbers that the source documents state, and some that follow from them, asked of the library through its C interface and
 * printed, one line an answer; vectors.out has what they should be. Three stand elsewhere: document 004's slice table and the row
 * that shows the order of rounding in the program slice_table, and the record written back in the program header_copy. Last come
 * files with reserved bytes in the extender (02-change-requests.md, P2), listed, edited, swapped and turned, and the sizes that
 * reading keeps (P4), of files as they are, swapped, appended to and turned, and files whose offset is no multiple of 16 (P6).
 */
#include "../nifti.h"
#include "vestumbral.h"

#include <stdio.h>
#include <string.h>

enum { SINGLE, PAIR };

static uint8_t file[4096];

/* A header in `file`, and nothing behind it. */
static void start(int kind, const int *dims, int datatype, int bitpix, float offset)
{
    memset(file, 0, sizeof file);
    header(file, kind == PAIR, dims, datatype, bitpix, float_bits(offset));
}

#define DIMS(...) ((const int[]){__VA_ARGS__})

static void show(const char *what, size_t length)
{
    vestumbral_file f = vestumbral_read(file, length);
    printf("%s: ", what);
    if (f.refusal) {
        printf("refused %llu at %llu\n", (unsigned long long)f.refusal, (unsigned long long)f.place);
        return;
    }
    printf("%s %s, dims", f.big_endian ? "big" : "little", f.pair ? "pair" : "single");
    for (int i = 1; i <= f.dim[0]; i++)
        printf(" %d", f.dim[i]);
    printf(", type %d bits %d, data %llu %llu, aligned %s, extensions %u\n", f.datatype, f.bitpix,
           (unsigned long long)f.data_offset, (unsigned long long)f.data_bytes, f.aligned ? "yes" : "no", f.extensions);
}

/* Voxel places are asked of a pair, whose image file has to be as long as it says but whose bytes are not read. */
static void voxel(const char *what, size_t image, uint64_t i, uint64_t j, uint64_t k, uint64_t t, uint64_t u)
{
    static uint8_t bytes[1 << 20];
    vestumbral_reply r = vestumbral_voxel(file, 348, bytes, image, i, j, k, t, u, 0, 0);
    printf("%s (%d,%d,%d,%d,%d): refusal %d, place %llu, length %llu\n", what, (int)i, (int)j, (int)k, (int)t, (int)u,
           (int)r.refusal, (unsigned long long)r.place, (unsigned long long)r.length);
}

static void file_a(void)
{
    static const struct { int at, value; } bytes[] = {{0, 0x5C}, {1, 1}, {40, 2}, {42, 3}, {44, 2}, {70, 4}, {72, 0x10},
                                                      {110, 0xB0}, {111, 0x43}, {344, 0x6E}, {345, 0x2B}, {346, 0x31}};
    memset(file, 0, sizeof file);
    for (size_t i = 0; i < sizeof bytes / sizeof *bytes; i++)
        file[bytes[i].at] = bytes[i].value;
}

static void dims(void)
{
    static const struct { const char *name; int dims[6]; } examples[] = {
        {"FMRI", {4, 64, 64, 20, 120}},      {"T1", {3, 256, 256, 128}},           {"EPI", {4, 64, 64, 1, 1200}},
        {"3-vector", {5, 256, 256, 128, 1, 3}}, {"3x3 matrix", {5, 1, 1, 1, 1200, 9}},
    };
    static const int types[3][2] = {{2, 8}, {4, 16}, {16, 32}};
    for (int i = 0; i < 5; i++)
        for (int t = 0; t < 3; t++) {
            start(PAIR, examples[i].dims, types[t][0], types[t][1], 0);
            for (int axis = 1; axis < 8; axis++)
                put32(file + 76 + 4 * axis, float_bits(axis == 4 ? 0 : 1)); /* pixdim[4] = 0.0, as the 3-vector example has it */
            show(examples[i].name, 348);
        }
}

static void places(void)
{
    start(PAIR, DIMS(5, 64, 64, 20, 1, 3), 16, 32, 0);
    show("VECTOR", 348);
    for (int c = 0; c < 3; c++)
        voxel("VECTOR", 983040, 0, 0, 0, 0, c);
    voxel("VECTOR", 983039, 0, 0, 0, 0, 0);
    start(PAIR, DIMS(5, 128, 128, 1, 1, 2), 16, 32, 0);
    show("TTEST", 348);
    voxel("TTEST", 131072, 0, 0, 0, 0, 1);
    start(PAIR, DIMS(3, 5, 4, 3), 512, 16, 352);
    voxel("three dims", 472, 0, 0, 0, 0, 0);
    voxel("three dims", 472, 1, 0, 0, 0, 0);
    voxel("three dims", 472, 0, 1, 0, 0, 0);
    voxel("three dims", 472, 0, 0, 1, 0, 0);
    voxel("three dims", 472, 4, 3, 2, 0, 0);
    voxel("three dims", 472, 4, 3, 3, 0, 0);
}

/* dim_info of frequency 1, phase 2, slice 3, and of a spiral: the slice axis is 3 in both. */
static void slice_axis(void)
{
    static const int infos[2] = {1 | 2 << 2 | 3 << 4, 3 << 4};
    for (int i = 0; i < 2; i++) {
        start(PAIR, DIMS(3, 2, 2, 7), 4, 16, 0);
        file[39] = infos[i];
        file[122] = 1;
        put16(file + 74, 1);
        put16(file + 120, 5);
        put32(file + 132, float_bits(0.1f));
        printf("dim_info %02X:", infos[i]);
        for (int s = 0; s < 8; s++) {
            vestumbral_slice a = vestumbral_slice_at(file, 348, s);
            printf(a.refusal ? " refused %d" : a.state == 2 ? " rank %d" : a.state ? " padding" : " unstated",
                   a.refusal ? (int)a.refusal : (int)a.rank);
        }
        printf("\n");
    }
}

static void offsets(void)
{
    static const uint32_t bits[] = {0x43B00000, 0x43B04000, 0x43AF8000, 0x4B800000, 0x4D000000, 0x4D000001, 0x80000000, 0x7F7FFFFF,
                                    0x41000000, 0x41800000}; /* the last two are 8 and 16 */
    for (size_t i = 0; i < sizeof bits / sizeof *bits; i++)
        for (int kind = SINGLE; kind <= PAIR; kind++) {
            char what[32];
            start(kind, DIMS(1, 1), 2, 8, 0);
            put32(file + 108, bits[i]);
            snprintf(what, sizeof what, "offset %08X", bits[i]);
            show(what, kind == PAIR ? 348 : 353);
        }
}

/* Extensions of 32, 16 and 48 bytes, and one of each code; payloads are all zero. */
static void extensions(void)
{
    static const int32_t sizes[3] = {32, 16, 48};
    static const int32_t codes[] = {0, 2, 4, 6, 8, 10, 12, 2147483646, 1, 2147483647};
    size_t at = 352;
    start(PAIR, DIMS(1, 1), 2, 8, 0);
    file[348] = 1;
    for (size_t i = 0; i < sizeof codes / sizeof *codes; i++) {
        int32_t size = i < 3 ? sizes[i] : 16;
        put32(file + at, size);
        put32(file + at + 4, codes[i]);
        at += size;
    }
    show("extensions", at);
    for (uint64_t i = 0; i <= sizeof codes / sizeof *codes; i++) {
        vestumbral_extension x = vestumbral_extension_at(file, at, i);
        printf("extension %d: refusal %d, start %d size %d code %d\n", (int)i, (int)x.refusal, (int)x.start, x.size, x.code);
    }
}

static void image_limit(void)
{
    start(PAIR, DIMS(3, 16384, 16384, 4096), 2, 8, 0);
    show("pair of 2^40 voxels", 348);
    put16(file + 70, 4);
    put16(file + 72, 16);
    show("pair of 2^40 voxels", 348);
}

static void append(void)
{
    file_a();
    vestumbral_reply r = vestumbral_append(file, sizeof file, 364, 6, (const uint8_t *)"hello", 5);
    printf("append of 5 bytes to A: refusal %d, length %d, aligned %d, size %u, vox_offset %08X\n", (int)r.refusal, (int)r.length,
           (int)r.aligned, get32(file + 352), get32(file + 108));
    show("A then", r.length);
    vestumbral_reply v = vestumbral_voxel(file, r.length, NULL, 0, 2, 1, 0, 0, 0, 0, 0);
    printf("A then, voxel (2,1): refusal %d, place %d, length %d\n", (int)v.refusal, (int)v.place, (int)v.length);
}

/* extents 16384 is turned round too, though no one uses it; xyzt_units stays. */
static void swap(void)
{
    file_a();
    put32(file + 32, 16384);
    file[123] = 2 | 8;
    for (int turn = 0; turn < 3; turn++) {
        if (turn)
            vestumbral_swap(file, 364, NULL, 0);
        printf("extents %02X %02X %02X %02X, xyzt_units %02X, magic %02X %02X %02X %02X\n", file[32], file[33], file[34], file[35],
               file[123], file[344], file[345], file[346], file[347]);
    }
}

/* srow is diag(1, -1, -1) with a whole shift. */
static void position(void)
{
    start(PAIR, DIMS(3, 10, 10, 10), 4, 16, 0);
    put16(file + 254, 1);
    for (int row = 0; row < 3; row++) {
        put32(file + 280 + 20 * row, float_bits(row ? -1 : 1));
        put32(file + 292 + 16 * row, float_bits(100 * row - 90));
    }
    static const int at[3][3] = {{0, 0, 0}, {3, 4, 5}, {9, 9, 9}};
    for (int i = 0; i < 3; i++) {
        vestumbral_position p = vestumbral_position_of(file, 348, at[i][0], at[i][1], at[i][2]);
        printf("position (%d,%d,%d): refusal %d, %g %g %g\n", at[i][0], at[i][1], at[i][2], (int)p.refusal, p.x, p.y, p.z);
    }
}

/* What an edit answered, vox_offset, and the buffer from the extender to 8 bytes past the longer of the old and the new file. */
static void edited(const char *what, vestumbral_reply r, size_t old)
{
    size_t end = (r.length > old ? r.length : old) + 8;
    printf("  %s: refusal %d at %d, length %d, aligned %d, vox_offset %08X,", what, (int)r.refusal, (int)r.place, (int)r.length,
           (int)r.aligned, get32(file + 108));
    for (size_t i = 348; i < end; i++)
        printf(i % 4 ? "%02X" : " %02X", file[i]);
    printf("\n");
}

/*
 * A file of two voxels with this extender and so many notes, or private bytes that look like them: 16 bytes, code 4, "old note". EE
 * bytes follow it in the buffer. Answers its length.
 */
static size_t noted(int kind, const int extender[4], int notes)
{
    size_t at = 352;
    start(kind, DIMS(3, 2, 1, 1), 2, 8, kind == PAIR ? 0 : 352 + 16 * notes);
    memset(file + 348, 0xEE, sizeof file - 348);
    for (int i = 0; i < 4; i++)
        file[348 + i] = extender[i];
    for (; notes > 0; notes--, at += 16) {
        put32(file + at, 16);
        put32(file + at + 4, 4);
        memcpy(file + at + 8, "old note", 8);
    }
    if (kind == PAIR)
        return at;
    file[at] = 0xA1;
    file[at + 1] = 0xA2;
    return at + 2;
}

/* The file listed; appended to; its first note replaced; its notes removed one by one; swapped and then turned. */
static void reserved(int kind, const int extender[4], int notes)
{
    static const uint8_t *const hello = (const uint8_t *)"hello";
    static uint8_t out[sizeof file], image[2], out_image[2];
    char what[64];
    size_t length = noted(kind, extender, notes);
    snprintf(what, sizeof what, "extender %d,%d,%d,%d", extender[0], extender[1], extender[2], extender[3]);
    show(what, length);
    for (int i = 0; i < notes; i++) {
        vestumbral_extension x = vestumbral_extension_at(file, length, i);
        printf("  extension %d: refusal %d, start %d size %d code %d\n", i, (int)x.refusal, (int)x.start, x.size, x.code);
    }
    edited("append", vestumbral_append(file, sizeof file, length, 6, hello, 5), length);
    noted(kind, extender, notes);
    edited("replace", vestumbral_replace(file, sizeof file, length, 0, 6, hello, 5), length);
    noted(kind, extender, notes);
    for (size_t old = length, i = 0; i == 0 || i < (size_t)notes; i++) {
        vestumbral_reply r = vestumbral_remove(file, sizeof file, old, 0);
        edited("remove", r, old);
        old = r.length;
    }
    noted(kind, extender, notes);
    vestumbral_reply r = vestumbral_swap(file, length, image, sizeof image);
    printf("  swap: refusal %d, extender %d,%d,%d,%d\n", (int)r.refusal, file[348], file[349], file[350], file[351]);
    vestumbral_turned t = vestumbral_turn(file, length, image, sizeof image, 1, 2, 3, 1, 0, 0, out, sizeof out, out_image, 2);
    printf("  turn: refusal %d, extender %d,%d,%d,%d\n", (int)t.refusal, out[348], out[349], out[350], out[351]);
}

static void reserved_bytes(void)
{
    static const struct { int extender[4], notes; } rows[] = {
        {{1, 0, 0, 7}, 1}, {{2, 9, 9, 9}, 2}, {{0, 1, 2, 3}, 1}, {{0, 1, 2, 3}, 0}};
    for (int kind = SINGLE; kind <= PAIR; kind++)
        for (size_t i = 0; i < sizeof rows / sizeof *rows; i++)
            reserved(kind, rows[i].extender, rows[i].notes);
    noted(PAIR, (const int[]){0xEE, 0xEE, 0xEE, 0xEE}, 0);
    show("348 bytes", 348);
    edited("append", vestumbral_append(file, sizeof file, 348, 6, (const uint8_t *)"hello", 5), 348);
    for (size_t length = 349; length < 352; length++)
        show("349 to 351 bytes", length);
}

/* A pair at 8 and a single file at 360, as they are, swapped, and appended to: the second has private bytes before its image. */
static void unaligned(void)
{
    static uint8_t image[9];
    for (int kind = SINGLE; kind <= PAIR; kind++) {
        size_t length = kind == PAIR ? 352 : 361;
        start(kind, DIMS(1, 1), 2, 8, kind == PAIR ? 8 : 360);
        show("unaligned", length);
        vestumbral_swap(file, length, image, sizeof image);
        show("unaligned, swapped", length);
        edited("append", vestumbral_append(file, sizeof file, length, 6, (const uint8_t *)"hello", 5), length);
    }
}

static void print_reply(const char *call, vestumbral_reply r)
{
    if (r.refusal)
        printf("%s refused %llu at %llu", call, (unsigned long long)r.refusal, (unsigned long long)r.place);
    else
        printf("%s %llu %llu", call, (unsigned long long)r.place, (unsigned long long)r.length);
}

/* The voxel by the file, and by what reading it answered. */
static void both_ways(vestumbral_file f, const uint8_t *bytes, size_t length, size_t image_length, const uint64_t i[7])
{
    static uint8_t image[1 << 12];
    printf("  (%d,%d,%d,%d,%d,%d,%d):", (int)i[0], (int)i[1], (int)i[2], (int)i[3], (int)i[4], (int)i[5], (int)i[6]);
    print_reply(" voxel", vestumbral_voxel(bytes, length, image, image_length, i[0], i[1], i[2], i[3], i[4], i[5], i[6]));
    print_reply(", voxel_in", vestumbral_voxel_in(f, image_length, i[0], i[1], i[2], i[3], i[4], i[5], i[6]));
    printf("\n");
}

/* The image and the steps; then the voxel that is second along each axis that has two, the last voxel, and one outside: along the
 * axis after dim[0], or along axis 7. */
static void show_sizes(const char *what, const uint8_t *bytes, size_t length, size_t image_length)
{
    vestumbral_file f = vestumbral_read(bytes, length);
    uint64_t second[7] = {0}, last[7] = {0};
    printf("%s: %s, data %llu %llu, steps", what, f.big_endian ? "big" : "little", (unsigned long long)f.data_offset,
           (unsigned long long)f.data_bytes);
    for (int i = 0; i < 7; i++)
        printf(" %llu", (unsigned long long)f.step[i]);
    printf("\n");
    for (int i = 0; i < f.dim[0]; i++) {
        second[i] = f.dim[i + 1] > 1;
        last[i] = f.dim[i + 1] - 1;
    }
    both_ways(f, bytes, length, image_length, second);
    both_ways(f, bytes, length, image_length, last);
    last[f.dim[0] < 7 ? f.dim[0] : 6]++;
    both_ways(f, bytes, length, image_length, last);
}

/* A file as it is, swapped, appended to, and turned where it has three axes: the new ones show old axes 3, 1 and 2, 1 reversed. */
static void sizes_of(const char *name, size_t length, size_t image_length)
{
    static uint8_t image[1 << 12], out[sizeof file], out_image[1 << 12];
    char what[64];
    show_sizes(name, file, length, image_length);
    vestumbral_swap(file, length, image, image_length);
    snprintf(what, sizeof what, "%s swapped", name);
    show_sizes(what, file, length, image_length);
    length = vestumbral_append(file, sizeof file, length, 6, (const uint8_t *)"hello", 5).length;
    snprintf(what, sizeof what, "%s swapped, appended to", name);
    show_sizes(what, file, length, image_length);
    vestumbral_turned t = vestumbral_turn(file, length, image, image_length, 3, 1, 2, 1, 0, 0, out, sizeof out, out_image,
                                          sizeof out_image);
    snprintf(what, sizeof what, "%s swapped, appended to, turned", name);
    if (t.refusal)
        printf("%s: refused %d at %d\n", what, (int)t.refusal, (int)t.place);
    else
        show_sizes(what, out, t.length, image_length);
}

static void sizes(void)
{
    file_a();
    sizes_of("A", 364, 0);
    start(SINGLE, DIMS(7, 2, 3, 4, 1, 2, 2, 3), 16, 32, 352);
    sizes_of("seven axes", 352 + 1152, 0);
    start(PAIR, DIMS(3, 5, 4, 3), 512, 16, 352);
    show_sizes("pair without its last byte", file, 348, 471);
    sizes_of("pair", 348, 472);
    file_a();
    show_sizes("A cut", file, 363, 0);
}

int main(void)
{
    file_a();
    show("A", 364);
    dims();
    places();
    slice_axis();
    offsets();
    extensions();
    image_limit();
    append();
    swap();
    position();
    reserved_bytes();
    unaligned();
    sizes();
    return 0;
}
