/*
 * Speed of the library beside memcpy, memmove and plain C, on the same input in the same run. Each time is the best of several
 * rounds, and in a round all of a row's ways are taken in turn. Every buffer is written before the first round. The table has the
 * time of one call, of one voxel or of one piece, and its ratio to that of each other way: above 1 the library is slower.
 *
 * The plain C (plain.h) judges the same rules and gives the same answers; before anything is timed, both are asked of 200,000
 * files with bytes changed at random, and the run stops where they differ, in the steps of a file too. Beside the calls that only
 * read stand a copy and a move of the bytes that reading looks at (header, extender, extensions); beside a swap of 64 MiB and of 1 MiB
 * a copy and a move of the image; beside an append and a removal that slide 64 MiB a copy and a move of these, the move by the same distance.
 *
 * The rows of 1000 voxels have the time of one voxel, and beside them stand a copy and a move of each voxel's bytes.
 *   voxel_in: vestumbral_voxel_in, called for each voxel with what vestumbral_read answered before the timing, by value, and with
 *     indexes of axes 1 to 3 from a table. Beside it stands plain_voxel_in, in another file and so not inlined, which gets the same
 *     by value, has the same seven index tests and adds the seven products of index and step; unlike the library it does not judge
 *     dim[0], data_offset, the image file's length and where the voxel ends. Then vestumbral_voxel, which reads the file for each
 *     voxel (/whole).
 *   voxel by record: one call of the crate voxel_run, which reads the file once, locates the first 1000 voxels of axis 1 by the
 *     record and answers the farthest place. Beside it stands a plain C loop over what was read before the timing, which calls
 *     plain_place_of for each voxel, in another file too, with the indexes k, 0, 0, 0, 0, 0, 0: the same seven tests and products,
 *     and the place and the length handed back by value. The library's loop and its call are compiled together, so there the
 *     compiler knows the six zeros; the row voxel_in is the one that compares like with like.
 *   voxel by file: one call of the crate voxel_run too, which reads the file for each voxel. The plain C reads for each voxel too.
 * In plain C an index after dim[0] that passes its test is 0, and the compiler leaves out its product.
 *
 * The rows in pieces feed a file from a start, the state passed by value and kept by the caller, and ask what it is: of 64 MiB in
 * pieces of 256 bytes, nearly all of them voxels, the time of one piece; of a small file the time of it all. Beside them stand a
 * copy and a move of each piece, and beside the small file also the library's reading of the whole (/whole).
 *
 * The rows of a turn have a single file of 256 x 256 x 128 voxels and the time of one voxel: each order of the axes, with none
 * reversed and with all three. Beside them stand plain C, a loop nest that reads in the same order, writes one voxel after another
 * and copies the rest of the file, and a copy of the whole file. Then come the mean and the worst ratio.
 *
 * The rows of a line have a single file of 64 x 64 x 30 x 200 voxels of two bytes and the time of one line.
 *   line: vestumbral_line, which reads the file, beside plain_line, which reads it too, and vestumbral_line_by_voxel (/whole).
 *   line by record: one call of the crate line_run, which reads the file once and copies the lines along an axis through the 64 voxels of
 *     axis 1. Beside it stands the plain C loop alone, over the same lines with the same stride, which judges nothing (/plain C), and the
 *     same call of line_run with each voxel located (/whole).
 * Beside both stands a copy of as many bytes that lie side by side.
 */
#define _POSIX_C_SOURCE 200809L
#include "../tests/nifti.h"
#include "plain.h"
#include "vestumbral.h"

#include <math.h>
#include <stdbool.h>
#include <stdio.h>
#include <stdlib.h>
#include <string.h>
#include <time.h>

/* Rounds are many and short, so that a machine with neighbours shows its own speed in some. LARGE_ROUNDS is even: swaps undo one
 * another. */
enum { SMALL_ROUNDS = 400, SMALL_CALLS = 4000, LARGE_ROUNDS = 8, IMAGE = 64 << 20, ROOM = IMAGE + (1 << 16) };

/* The voxels of a row, and how often they are located in a round. */
enum { VOXELS = 1000, VOXEL_CALLS = 5 };

/* The bytes that the bridge delivers at a time, and the files of a round that come so. */
enum { PIECE = 256, PIECE_CALLS = 400 };

/* A swap in cache: its image, how often it is swapped, and the bytes that go together at most. Its rounds undo one another too. */
enum { CACHED = 1 << 20, CACHED_ROUNDS = 100, CACHED_CALLS = 10, BLOCK = 64 };

/* The axes of the volume that is turned, its voxels, and the bytes after its image. */
enum { SIDE = 256, SLICES = 128, TURNED = SIDE * SIDE * SLICES, TAIL = 100, TURN_ROUNDS = 9 };

/* The axes of the volume whose lines are copied. */
enum { WIDE = 64, DEEP = 30, TIMES = 200, LINE_CALLS = 2000, LINE_RUNS = 30 };

/* The crate line_run: the lines along an axis through the first `count` voxels of axis 1, each over the one before; the most bytes of one. */
uint64_t line_run_by_steps(const uint8_t *file, size_t file_len, uint64_t axis, uint64_t count, uint8_t *out, size_t out_len);
uint64_t line_run_by_voxel(const uint8_t *file, size_t file_len, uint64_t axis, uint64_t count, uint8_t *out, size_t out_len);

/* The crate voxel_run: the farthest place among the first `count` voxels of axis 1. */
uint64_t voxel_run_by_record(const uint8_t *file, size_t file_len, uint64_t count);
uint64_t voxel_run_by_file(const uint8_t *file, size_t file_len, uint64_t count);

static uint8_t *work, *other, *copy; /* ROOM bytes each: the library's file, plain C's, and what is copied and moved */
static volatile uint64_t sink;

static void fail(const char *what)
{
    printf("bench: %s\n", what);
    exit(1);
}

static double now(void)
{
    struct timespec t;
    clock_gettime(CLOCK_MONOTONIC, &t);
    return t.tv_sec * 1e9 + t.tv_nsec;
}

/* The ways of a row; the last, of a file in pieces and of a voxel by what was read before, is the library's on the whole file, and of a
 * swap the library's unit by unit. */
typedef void way(void);

enum { LIBRARY, MEMCPY, MEMMOVE, PLAIN, WHOLE, WAYS };

static void print_row(const char *name, const char *input, const double best[WAYS])
{
    printf("%-15s %-26s %14.*f", name, input, best[LIBRARY] < 10 ? 2 : 1, best[LIBRARY]);
    for (int w = MEMCPY; w < WAYS; w++)
        best[w] < INFINITY ? printf(" %9.2f", best[LIBRARY] / best[w]) : printf(" %9s", "-");
    printf("\n");
    fflush(stdout);
}

/* The best time of each way. A call of a way does `parts` of what the time is of. */
static void measure(double best[WAYS], way *const ways[WAYS], int rounds, int calls, int parts)
{
    for (int w = 0; w < WAYS; w++)
        best[w] = INFINITY;
    for (int round = 0; round < rounds; round++)
        for (int w = 0; w < WAYS; w++) {
            if (!ways[w])
                continue;
            double start = now();
            for (int i = 0; i < calls; i++)
                ways[w]();
            double each = (now() - start) / calls / parts;
            best[w] = each < best[w] ? each : best[w];
        }
}

static void row(const char *name, const char *input, way *const ways[WAYS], int rounds, int calls, int parts)
{
    double best[WAYS];
    measure(best, ways, rounds, calls, parts);
    print_row(name, input, best);
}

/*
 * A little-endian single file in `work` with so many extensions of 32 bytes, with slice timing and srow numbers; answers its
 * length. The image's bytes are there already (fill).
 */
static size_t make(int extensions, const int dims[4], int datatype, int bitpix)
{
    size_t offset = 352 + 32 * (size_t)extensions, bytes = bitpix / 8;
    for (int i = 1; i < 4; i++)
        bytes *= dims[i];
    header(work, 0, dims, datatype, bitpix, float_bits(offset));
    work[39] = 3 << 4; /* the slices are those of axis 3 */
    work[122] = 3;
    put16(work + 120, dims[3] - 1);
    put32(work + 132, float_bits(0.5f));
    put16(work + 254, 1);
    for (int row = 0; row < 3; row++)
        for (int i = 0; i < 4; i++)
            put32(work + 280 + 16 * row + 4 * i, float_bits(i == 3 ? -90 : i == row ? 2 : 0.25f));
    memset(work + 348, 0, 4);
    work[348] = extensions > 0;
    for (int i = 0; i < extensions; i++) {
        put32(work + 352 + 32 * i, 32);
        put32(work + 356 + 32 * i, 6);
        memset(work + 360 + 32 * i, 'n', 24);
    }
    if (vestumbral_read(work, offset + bytes).refusal != 0)
        fail("the input is refused");
    return offset + bytes;
}

static void fill(void)
{
    for (size_t i = 0; i < ROOM; i++)
        work[i] = copy[i] = i * 167 >> 3;
}

/* What every row below works on. `number` is the last extension. */
static size_t file_len, other_len, looked_at, slid_from, slid_to, slid_bytes, unit;
static uint64_t number;

static const uint8_t note[24] = "a note of twenty-four b.";

static void read_library(void) { sink = vestumbral_read(work, file_len).data_bytes; }
static void read_plain(void) { sink = plain_read(work, file_len).data_bytes; }
static void extension_library(void) { sink = vestumbral_extension_at(work, file_len, number).start; }
static void extension_plain(void) { sink = plain_extension_at(work, file_len, number).start; }
static void voxel_library(void) { sink = vestumbral_voxel(work, file_len, NULL, 0, sink % 3, 1, 0, 0, 0, 0, 0).place; }
static void voxel_plain(void) { sink = plain_voxel(work, file_len, NULL, 0, sink % 3, 1, 0, 0, 0, 0, 0).place; }
static void slice_library(void) { sink = vestumbral_slice_at(work, file_len, sink % 4).rank; }
static void slice_plain(void) { sink = plain_slice_at(work, file_len, sink % 4).rank; }
static void ranked_library(void) { sink = vestumbral_slice_of_rank(work, file_len, sink % 4).slice; }
static void ranked_plain(void) { sink = plain_slice_of_rank(work, file_len, sink % 4).slice; }
static void position_library(void) { sink = vestumbral_position_of(work, file_len, sink % 3, 1, 2).x > 0; }
static void position_plain(void) { sink = plain_position_of(work, file_len, sink % 3, 1, 2).x > 0; }
static void swap_library(void) { sink = vestumbral_swap(work, file_len, NULL, 0).refusal; }
static void swap_plain(void) { sink = plain_swap(other, other_len, NULL, 0).refusal; }

static void edited(vestumbral_reply reply, size_t *length)
{
    if (reply.refusal != 0)
        fail("an edit is refused");
    *length = reply.length;
}

static void replace_library(void) { edited(vestumbral_replace(work, ROOM, file_len, number, 6, note, sizeof note), &file_len); }
static void replace_plain(void) { edited(plain_replace(other, ROOM, other_len, number, 6, note, sizeof note), &other_len); }
static void append_library(void) { edited(vestumbral_append(work, ROOM, file_len, 6, note, sizeof note), &file_len); }
static void append_plain(void) { edited(plain_append(other, ROOM, other_len, 6, note, sizeof note), &other_len); }
static void remove_library(void) { edited(vestumbral_remove(work, ROOM, file_len, number), &file_len); }
static void remove_plain(void) { edited(plain_remove(other, ROOM, other_len, number), &other_len); }

static void both_library(void)
{
    append_library();
    remove_library();
}

static void both_plain(void)
{
    append_plain();
    remove_plain();
}

static void looked_at_copy(void)
{
    memcpy(copy, work, looked_at);
    sink = copy[looked_at - 1];
}

static void looked_at_move(void)
{
    memmove(copy + 16, copy, looked_at);
    sink = copy[looked_at - 1];
}

static void same_files(void)
{
    if (file_len != other_len || memcmp(work, other, file_len) != 0)
        fail("plain C leaves another file");
}

/* Every call on a small file with so many extensions, in either byte order. */
static void small_rows(int extensions, int big)
{
    static const int small[4] = {3, 3, 2, 4};
    static const struct { const char *name; way *library, *plain; int reads, least, most; } calls[] = {
        {"read", read_library, read_plain, 1, 0, 64},
        {"extension_at", extension_library, extension_plain, 1, 0, 64},
        {"voxel", voxel_library, voxel_plain, 1, 0, 64},
        {"slice_at", slice_library, slice_plain, 1, 0, 64},
        {"slice_of_rank", ranked_library, ranked_plain, 1, 0, 64},
        {"position_of", position_library, position_plain, 1, 0, 64},
        {"swap", swap_library, swap_plain, 0, 0, 64},
        {"replace", replace_library, replace_plain, 0, 1, 64},
        {"append, remove", both_library, both_plain, 0, 0, 63},
    };
    char input[32];
    snprintf(input, sizeof input, "%d extensions%s", extensions, big ? ", big" : "");
    file_len = make(extensions, small, 4, 16);
    if (big)
        swap_library();
    looked_at = 352 + 32 * extensions;
    memcpy(other, work, file_len);
    other_len = file_len;
    for (size_t i = 0; i < sizeof calls / sizeof *calls; i++) {
        if (extensions < calls[i].least || extensions > calls[i].most)
            continue;
        number = extensions - (extensions > 0 && calls[i].library != both_library);
        way *const ways[WAYS] = {calls[i].library, calls[i].reads ? looked_at_copy : NULL, calls[i].reads ? looked_at_move : NULL,
                                 calls[i].plain};
        row(calls[i].name, input, ways, SMALL_ROUNDS, SMALL_CALLS, 1);
        same_files();
    }
}

static vestumbral_file read_before;

/* Indexes of axes 1 to 3 that the compiler cannot know: the table is made by a seed that is read at run time. */
static uint16_t indexes[VOXELS][3];

static void make_indexes(const int dims[4])
{
    static volatile uint64_t start = 88172645463325252;
    uint64_t n = start;
    for (int v = 0; v < VOXELS; v++)
        for (int axis = 0; axis < 3; axis++) {
            n ^= n << 13;
            n ^= n >> 7;
            n ^= n << 17;
            indexes[v][axis] = n % dims[axis + 1];
        }
}

typedef vestumbral_reply locate(vestumbral_file, uint64_t, uint64_t, uint64_t, uint64_t, uint64_t, uint64_t, uint64_t, uint64_t);

/* The sum of the places, by the library's call or plain C's. */
static inline __attribute__((always_inline)) void locate_all(locate *voxel_in)
{
    uint64_t sum = 0;
    for (int v = 0; v < VOXELS; v++) {
        const uint16_t *at = indexes[v];
        vestumbral_reply reply = voxel_in(read_before, 0, at[0], at[1], at[2], 0, 0, 0, 0);
        sum += reply.place + reply.refusal;
    }
    sink = sum;
}

static void in_library(void) { locate_all(vestumbral_voxel_in); }
static void in_plain(void) { locate_all(plain_voxel_in); }

static void in_file(void)
{
    uint64_t sum = 0;
    for (int v = 0; v < VOXELS; v++) {
        const uint16_t *at = indexes[v];
        vestumbral_reply reply = vestumbral_voxel(work, file_len, NULL, 0, at[0], at[1], at[2], 0, 0, 0, 0);
        sum += reply.place + reply.refusal;
    }
    sink = sum;
}

static size_t place_of(int v)
{
    const uint16_t *at = indexes[v];
    return looked_at + at[0] * read_before.step[0] + at[1] * read_before.step[1] + at[2] * read_before.step[2];
}

static void in_copy(void)
{
    for (int v = 0; v < VOXELS; v++) {
        memcpy(copy + v * unit, work + place_of(v), unit);
        sink = copy[v * unit];
    }
}

static void in_move(void)
{
    for (int v = 0; v < VOXELS; v++) {
        memmove(copy + v * unit, copy + place_of(v), unit);
        sink = copy[v * unit];
    }
}

static void record_library(void) { sink = voxel_run_by_record(work, file_len, VOXELS); }
static void file_library(void) { sink = voxel_run_by_file(work, file_len, VOXELS); }

static void record_plain(void)
{
    uint64_t most = 0;
    for (uint64_t k = 0; k < VOXELS; k++) {
        plain_place voxel = plain_place_of(&read_before, k, 0, 0, 0, 0, 0, 0);
        most = voxel.place > most ? voxel.place : most;
    }
    sink = most;
}

static void file_plain(void)
{
    uint64_t most = 0;
    for (uint64_t k = 0; k < VOXELS; k++) {
        uint64_t place = plain_voxel(work, file_len, NULL, 0, k, 0, 0, 0, 0, 0, 0).place;
        most = place > most ? place : most;
    }
    sink = most;
}

static void voxels_copy(void)
{
    for (size_t k = 0; k < VOXELS; k++) {
        memcpy(copy + k * unit, work + looked_at + k * unit, unit);
        sink = copy[k * unit];
    }
}

static void voxels_move(void)
{
    for (size_t k = 0; k < VOXELS; k++) {
        memmove(copy + 16 + k * unit, copy + k * unit, unit);
        sink = copy[k * unit];
    }
}

/* Voxels of the same file by what was read before, by the record of one reading, and by the file. */
static void voxel_rows(int extensions)
{
    static const int dims[4] = {3, 1024, 4, 4};
    static const struct { const char *name; way *ways[WAYS]; } rows[3] = {
        {"voxel_in", {in_library, in_copy, in_move, in_plain, in_file}},
        {"voxel by record", {record_library, voxels_copy, voxels_move, record_plain}},
        {"voxel by file", {file_library, voxels_copy, voxels_move, file_plain}}};
    char input[32];
    snprintf(input, sizeof input, "%d voxels, %d extensions", VOXELS, extensions);
    file_len = make(extensions, dims, 4, 16);
    unit = 2;
    looked_at = 352 + 32 * extensions;
    read_before = vestumbral_read(work, file_len);
    make_indexes(dims);
    uint64_t farthest = looked_at + unit * (VOXELS - 1), sum = 0;
    for (int v = 0; v < VOXELS; v++)
        sum += looked_at + unit * (indexes[v][0] + dims[1] * (indexes[v][1] + (size_t)dims[2] * indexes[v][2]));
    for (int i = 0; i < 3; i++) {
        for (int w = LIBRARY; w < WAYS; w++) {
            if (!rows[i].ways[w] || w == MEMCPY || w == MEMMOVE)
                continue;
            rows[i].ways[w]();
            if (sink != (i == 0 ? sum : farthest))
                fail("another place is answered for a voxel");
        }
        row(rows[i].name, input, rows[i].ways, SMALL_ROUNDS, VOXEL_CALLS, VOXELS);
    }
}

static size_t image_bytes;

static void image_copy(void)
{
    memcpy(copy, work + 352, image_bytes);
    sink = copy[image_bytes - 1];
}

static void image_move(void)
{
    memmove(copy + 16, copy, image_bytes);
    sink = copy[image_bytes - 1];
}

static void by_unit_library(void) { sink = vestumbral_swap_by_unit(work, file_len, NULL, 0).refusal; }

/* Both swaps of the same file in the same rounds, a row for each; their rounds leave the file as it was. */
static void swap_row(const char *input, const int dims[4], int datatype, int bitpix, int rounds, int calls)
{
    static way *const ways[WAYS] = {swap_library, image_copy, image_move, swap_plain, by_unit_library};
    double best[WAYS];
    file_len = other_len = make(0, dims, datatype, bitpix);
    image_bytes = file_len - 352;
    memcpy(other, work, ROOM);
    measure(best, ways, rounds, calls, 1);
    same_files();
    print_row("swap", input, best);
    best[LIBRARY] = best[WHOLE];
    best[WHOLE] = INFINITY;
    print_row("swap_by_unit", input, best);
}

/* The largest image with at most `most` units, nearly square, that leaves `left` units behind blocks of so many. */
static void leaving(int dims[4], int most, int block, int left)
{
    int side = 1;
    while ((side + 1) * (side + 1) <= most)
        side++;
    dims[0] = 3;
    dims[1] = dims[2] = dims[3] = 1;
    for (int a = side; a > side - 16; a--)
        for (int b = most / a; b > most / a - 16; b--)
            if (a * b % block == left && a * b > dims[1] * dims[2]) {
                dims[1] = a;
                dims[2] = b;
            }
}

static void swap_rows(void)
{
    static const int types[5][3] = {{1, 2, 8}, {2, 4, 16}, {4, 8, 32}, {8, 64, 64}, {16, 1536, 128}};
    for (int i = 0; i < 5; i++) {
        char input[32];
        const int dims[4] = {3, 1024, 1024, 64 * 8 / types[i][2]};
        snprintf(input, sizeof input, "64 MiB, unit %d", types[i][0]);
        swap_row(input, dims, types[i][1], types[i][2], LARGE_ROUNDS, 1);
    }
    for (int i = 1; i < 5; i++)
        for (int left = 0; left < 4 && left < BLOCK / types[i][0]; left++) {
            char input[32];
            int dims[4];
            leaving(dims, CACHED / types[i][0], BLOCK / types[i][0], left);
            snprintf(input, sizeof input, "1 MiB, unit %d, %d left", types[i][0], left);
            swap_row(input, dims, types[i][1], types[i][2], CACHED_ROUNDS, CACHED_CALLS);
        }
}

static void slide_copy(void)
{
    memcpy(copy, work + slid_from, slid_bytes);
    sink = copy[slid_bytes - 1];
}

static void slide_move(void)
{
    memmove(copy + slid_to, copy + slid_from, slid_bytes);
    sink = copy[slid_bytes - 1];
}

/* An append and the removal that undoes it are timed apart, in turn. */
static void slide_rows(void)
{
    static const int large[4] = {3, 1024, 1024, 32};
    way *const ways[2][WAYS] = {{append_library, slide_copy, slide_move, append_plain},
                                {remove_library, slide_copy, slide_move, remove_plain}};
    double best[2][WAYS];
    for (int w = 0; w < 2 * WAYS; w++)
        best[w / WAYS][w % WAYS] = INFINITY;
    file_len = other_len = make(0, large, 4, 16);
    memcpy(other, work, ROOM);
    slid_bytes = IMAGE;
    number = 0;
    for (int round = 0; round < 2 * LARGE_ROUNDS; round++) {
        int removal = round % 2;
        slid_from = removal ? 384 : 352;
        slid_to = removal ? 352 : 384;
        for (int w = LIBRARY; w <= PLAIN; w++) {
            double start = now();
            ways[removal][w]();
            double took = now() - start;
            best[removal][w] = took < best[removal][w] ? took : best[removal][w];
        }
        same_files();
    }
    for (int removal = 0; removal < 2; removal++)
        print_row(removal ? "remove" : "append", "32 bytes, 64 MiB slide", best[removal]);
}

static size_t piece_len;

static size_t piece_at(size_t at)
{
    return file_len - at < piece_len ? file_len - at : piece_len;
}

/* A file from a start to its answer, by the library's calls or plain C's. */
static inline __attribute__((always_inline)) void feed(vestumbral_pieces (*start)(void),
                                                       vestumbral_taken (*take)(vestumbral_pieces, const uint8_t *, size_t),
                                                       vestumbral_file (*file)(vestumbral_pieces))
{
    vestumbral_pieces pieces = start();
    for (size_t at = 0; at < file_len; at += piece_len) {
        vestumbral_taken taken = take(pieces, work + at, piece_at(at));
        if (taken.refusal != 0)
            fail("a piece is refused");
        pieces = taken.pieces;
    }
    sink = file(pieces).data_bytes;
}

static void pieces_library(void) { feed(vestumbral_pieces_start, vestumbral_pieces_take, vestumbral_pieces_file); }
static void pieces_plain(void) { feed(plain_pieces_start, plain_pieces_take, plain_pieces_file); }

static void pieces_copy(void)
{
    for (size_t at = 0; at < file_len; at += piece_len)
        memcpy(copy + at, work + at, piece_at(at));
    sink = copy[file_len - 1];
}

static void pieces_move(void)
{
    for (size_t at = 0; at < file_len; at += piece_len)
        memmove(copy + at + 16, copy + at, piece_at(at));
    sink = copy[file_len - 1];
}

static void piece_rows(void)
{
    static const int small[4] = {3, 3, 2, 4}, large[4] = {3, 1024, 1024, 64};
    static way *const ways[WAYS] = {pieces_library, pieces_copy, pieces_move, pieces_plain, read_library};
    file_len = make(64, small, 4, 16);
    piece_len = PIECE;
    row("file in pieces", "64 extensions, by 256", ways, SMALL_ROUNDS, PIECE_CALLS, 1);
    piece_len = file_len;
    row("file in pieces", "64 extensions, in one", ways, SMALL_ROUNDS, PIECE_CALLS, 1);
    static way *const skipping[WAYS] = {pieces_library, pieces_copy, pieces_move, pieces_plain};
    file_len = make(0, large, 2, 8);
    piece_len = PIECE;
    row("piece of 256", "64 MiB", skipping, LARGE_ROUNDS, 1, (file_len + PIECE - 1) / PIECE);
}

/* The turn of a row: the file is `work`, the library's goes to `other` and plain C's to `copy`. */
static const uint8_t *shown;
static uint64_t reverse;

static void turned(vestumbral_turned answer)
{
    if (answer.refusal != 0 || answer.length != file_len)
        fail("a turn is refused");
}

static void turn_library(void)
{
    turned(vestumbral_turn(work, file_len, NULL, 0, shown[0], shown[1], shown[2], reverse, reverse, reverse, other, ROOM, NULL, 0));
}

static void turn_plain(void)
{
    turned(plain_turn(work, file_len, NULL, 0, shown[0], shown[1], shown[2], reverse, reverse, reverse, copy, ROOM, NULL, 0));
}

static void file_copy(void)
{
    memcpy(copy, work, file_len);
    sink = copy[file_len - 1];
}

/* Ratios of some rows: how many, their sum, the worst and its row. */
struct ratios {
    int count;
    double sum, worst;
    char input[48];
};

static void count_ratio(struct ratios *r, double ratio, const char *input)
{
    r->count++;
    r->sum += ratio;
    if (ratio > r->worst) {
        r->worst = ratio;
        strcpy(r->input, input);
    }
}

static void turn_rows(void)
{
    static const uint8_t orders[6][3] = {{1, 2, 3}, {1, 3, 2}, {2, 1, 3}, {2, 3, 1}, {3, 1, 2}, {3, 2, 1}};
    static const int types[4][2] = {{2, 8}, {4, 16}, {16, 32}, {64, 64}}, dims[4] = {3, SIDE, SIDE, SLICES};
    static way *const ways[WAYS] = {turn_library, file_copy, NULL, turn_plain};
    static const struct { int way; const char *name; } beside[2] = {{PLAIN, "plain C"}, {MEMCPY, "memcpy"}};
    struct ratios ratios[2][5] = {0}; /* of each width, and then of all */
    memset(other, 1, ROOM);
    for (int t = 0; t < 4; t++) {
        file_len = make(0, dims, types[t][0], types[t][1]) + TAIL;
        for (int turn = 0; turn < 12; turn++) {
            char input[48];
            double best[WAYS];
            shown = orders[turn / 2];
            reverse = turn % 2;
            snprintf(input, sizeof input, "%d-byte, %d %d %d%s", types[t][1] / 8, shown[0], shown[1], shown[2],
                     reverse ? ", reversed" : "");
            turn_library();
            turn_plain();
            if (memcmp(other, copy, file_len) != 0)
                fail("plain C turns into another file");
            measure(best, ways, TURN_ROUNDS, 1, TURNED);
            print_row("turn", input, best);
            for (int b = 0; b < 2; b++) {
                count_ratio(&ratios[b][t], best[LIBRARY] / best[beside[b].way], input);
                count_ratio(&ratios[b][4], best[LIBRARY] / best[beside[b].way], input);
            }
        }
    }
    for (int b = 0; b < 2; b++)
        for (int t = 0; t < 5; t++) {
            const struct ratios *r = &ratios[b][t];
            char name[32] = "all widths";
            if (t < 4)
                snprintf(name, sizeof name, "%d-byte", types[t][1] / 8);
            printf("turn / %s, %s: mean %.2f, worst %.2f (%s)\n", beside[b].name, name, r->sum / r->count, r->worst, r->input);
        }
}

/* The line of a row: its axis, and how many bytes it has. The library's goes to `other` and plain C's to `copy`. */
static uint64_t along;
static size_t line_bytes;

static void lined(vestumbral_reply reply)
{
    if (reply.refusal != 0 || reply.length != line_bytes)
        fail("a line is refused");
}

static void line_library(void) { lined(vestumbral_line(work, file_len, NULL, 0, along, 17, 31, 11, 99, 0, 0, 0, other, ROOM)); }
static void line_by_voxel(void) { lined(vestumbral_line_by_voxel(work, file_len, NULL, 0, along, 17, 31, 11, 99, 0, 0, 0, other, ROOM)); }
static void line_plain(void) { lined(plain_line(work, file_len, NULL, 0, along, 17, 31, 11, 99, 0, 0, 0, copy, ROOM)); }

static void line_copy(void)
{
    memcpy(copy, work + 352, line_bytes);
    sink = copy[line_bytes - 1];
}

static void drawn(uint64_t most)
{
    if (most != line_bytes)
        fail("a line is refused");
}

static void drawn_library(void) { drawn(line_run_by_steps(work, file_len, along, WIDE, other, ROOM)); }
static void drawn_by_voxel(void) { drawn(line_run_by_voxel(work, file_len, along, WIDE, other, ROOM)); }

static void drawn_plain(void)
{
    for (uint64_t k = 0; k < WIDE; k++)
        plain_steps(copy, work + read_before.data_offset + k * read_before.step[0], read_before.step[along - 1], read_before.dim[along],
                    read_before.step[0]);
    sink = copy[line_bytes - 1];
}

static void drawn_copy(void)
{
    for (int k = 0; k < WIDE; k++)
        line_copy();
}

/* All ways of a row leave the same line. */
static void line_row(const char *name, const char *input, way *const ways[WAYS], int calls, int parts)
{
    static const int beside[2] = {PLAIN, WHOLE};
    for (int b = 0; b < 2; b++) {
        memset(other, 1, line_bytes);
        ways[beside[b]]();
        if (beside[b] == WHOLE)
            memcpy(copy, other, line_bytes);
        memset(other, 2, line_bytes);
        ways[LIBRARY]();
        if (memcmp(other, copy, line_bytes) != 0)
            fail("a line has other bytes");
    }
    row(name, input, ways, SMALL_ROUNDS / 4, calls, parts);
}

static void line_rows(void)
{
    static const int dims[4] = {3, WIDE, WIDE, DEEP};
    static way *const by_file[WAYS] = {line_library, line_copy, NULL, line_plain, line_by_voxel};
    static way *const by_record[WAYS] = {drawn_library, drawn_copy, NULL, drawn_plain, drawn_by_voxel};
    file_len = 352 + (make(0, dims, 4, 16) - 352) * TIMES;
    put16(work + 40, 4);
    put16(work + 48, TIMES);
    read_before = vestumbral_read(work, file_len);
    for (along = 1; along <= 4; along++) {
        char input[32];
        snprintf(input, sizeof input, "%d voxels of axis %d", read_before.dim[along], (int)along);
        line_bytes = read_before.dim[along] * read_before.step[0];
        line_row("line", input, by_file, LINE_CALLS, 1);
        if (along > 1)
            line_row("line by record", input, by_record, LINE_RUNS, WIDE);
    }
}

static uint32_t seed = 12345;

static uint32_t chance(uint32_t below)
{
    seed ^= seed << 13;
    seed ^= seed >> 17;
    seed ^= seed << 5;
    return seed % below;
}

static void same_replies(vestumbral_reply a, vestumbral_reply b)
{
    if (a.refusal != b.refusal || a.place != b.place || a.length != b.length || a.aligned != b.aligned)
        fail("plain C gives another reply");
}

/* The struct ends with four bytes that have no meaning. */
static bool same_answers(const vestumbral_file *a, const vestumbral_file *b)
{
    return memcmp(a, b, offsetof(vestumbral_file, aligned)) == 0 && a->aligned == b->aligned;
}

/* The same pieces of a file, taken by the library and by plain C. */
static void compare_pieces(size_t length, uint64_t n)
{
    vestumbral_pieces a = vestumbral_pieces_start(), b = plain_pieces_start();
    for (size_t at = 0, more; at < length; at += more) {
        more = chance(3) == 0 ? chance(20) : chance(600);
        more = more < length - at ? more : length - at;
        a = vestumbral_pieces_take(a, work + at, more).pieces;
        b = plain_pieces_take(b, work + at, more).pieces;
    }
    vestumbral_file f = vestumbral_pieces_file(a), g = plain_pieces_file(b);
    vestumbral_extension x = vestumbral_pieces_extension_at(a, n), y = plain_pieces_extension_at(b, n);
    if (!same_answers(&f, &g) || memcmp(&x, &y, sizeof x) != 0)
        fail("plain C reads another file or extension in pieces");
}

/* A turn of a file, most often one that has axes 1 to 3, into buffers that are most often long enough. */
static void compare_turns(size_t length, const uint8_t *image, size_t image_len)
{
    enum { SIZE = 4096, IMAGE_SIZE = 512 };
    static uint8_t outs[2][SIZE], images[2][IMAGE_SIZE];
    static const uint8_t orders[8][3] = {{1, 2, 3}, {1, 3, 2}, {2, 1, 3}, {2, 3, 1}, {3, 1, 2}, {3, 2, 1}, {1, 2, 2}, {0, 1, 2}};
    const uint8_t *o = orders[chance(8)];
    const uint64_t flags = chance(8), p = flags & 1, q = flags & 2, r = flags & 4;
    const size_t out_len = length + chance(20) - (length > 0 && chance(8) == 0);
    const size_t image_out_len = chance(8) == 0 ? chance(IMAGE_SIZE) : image_len;
    vestumbral_turned a = vestumbral_turn(work, length, image, image_len, o[0], o[1], o[2], p, q, r, outs[0], out_len, images[0],
                                          image_out_len);
    vestumbral_turned b = plain_turn(work, length, image, image_len, o[0], o[1], o[2], p, q, r, outs[1], out_len, images[1],
                                     image_out_len);
    if (memcmp(&a, &b, sizeof a) != 0)
        fail("plain C answers another turn");
    if (memcmp(outs[0], outs[1], SIZE) != 0 || memcmp(images[0], images[1], IMAGE_SIZE) != 0)
        fail("plain C turns into another file");
}

/* A line of a file, most often along one of its axes, into a buffer that is most often long enough, by both engines. */
static void compare_lines(size_t length, const uint8_t *image, size_t image_len, const uint64_t i[4])
{
    enum { SIZE = 64 };
    static uint8_t outs[3][SIZE];
    const uint64_t axis = chance(16) == 0 ? chance(9) : 1 + chance(3);
    const size_t out_len = chance(4) == 0 ? chance(20) : SIZE - chance(8);
    vestumbral_reply a = vestumbral_line(work, length, image, image_len, axis, i[0], i[1], i[2], 0, 0, 0, i[3], outs[0], out_len);
    same_replies(a, plain_line(work, length, image, image_len, axis, i[0], i[1], i[2], 0, 0, 0, i[3], outs[1], out_len));
    same_replies(a, vestumbral_line_by_voxel(work, length, image, image_len, axis, i[0], i[1], i[2], 0, 0, 0, i[3], outs[2], out_len));
    if (memcmp(outs[0], outs[1], SIZE) != 0 || memcmp(outs[0], outs[2], SIZE) != 0)
        fail("a line has other bytes");
}

/* Each reading call of a file, and then each that changes it in turn, by the library and by plain C. */
static void compare_calls(size_t length)
{
    enum { SIZE = 4096, IMAGE_SIZE = 512 };
    static uint8_t images[3][IMAGE_SIZE];
    const uint64_t n = chance(4), i = chance(4), j = chance(3), k = chance(5), last = chance(8) == 0;
    const size_t image_len = chance(IMAGE_SIZE);
    const int32_t code = chance(16) == 0 ? -1 : 6;
    vestumbral_file f = vestumbral_read(work, length), g = plain_read(work, length);
    vestumbral_extension x = vestumbral_extension_at(work, length, n), y = plain_extension_at(work, length, n);
    vestumbral_slice s = vestumbral_slice_at(work, length, k), t = plain_slice_at(work, length, k);
    vestumbral_ranked u = vestumbral_slice_of_rank(work, length, k), v = plain_slice_of_rank(work, length, k);
    vestumbral_position p = vestumbral_position_of(work, length, i, j, k), q = plain_position_of(work, length, i, j, k);
    if (!same_answers(&f, &g) || memcmp(&x, &y, sizeof x) != 0)
        fail("plain C reads another file or extension");
    compare_pieces(length, n);
    if (s.refusal != t.refusal || s.place != t.place || s.state != t.state || s.rank != t.rank || s.seconds != t.seconds)
        fail("plain C answers another slice");
    if (memcmp(&u, &v, sizeof u) != 0)
        fail("plain C answers another slice of a rank");
    if (p.refusal != q.refusal || p.place != q.place || p.x != q.x || p.y != q.y || p.z != q.z)
        fail("plain C answers another position");
    same_replies(vestumbral_voxel(work, length, images[0], image_len, i, j, k, 0, 0, 0, last),
                 plain_voxel(work, length, images[0], image_len, i, j, k, 0, 0, 0, last));
    same_replies(vestumbral_voxel_in(f, image_len, i, j, k, 0, 0, 0, last),
                 vestumbral_voxel(work, length, images[0], image_len, i, j, k, 0, 0, 0, last));
    if (!f.pair) /* plain C does not judge a pair's image file */
        same_replies(vestumbral_voxel_in(f, 0, i, j, k, 0, 0, 0, last), plain_voxel_in(g, 0, i, j, k, 0, 0, 0, last));
    compare_turns(length, images[0], image_len);
    compare_lines(length, images[0], image_len, (const uint64_t[4]){i, j, k, last});
    memcpy(other, work, SIZE);
    memcpy(copy, work, SIZE);
    memcpy(images[1], images[0], IMAGE_SIZE);
    memcpy(images[2], images[0], IMAGE_SIZE);
    vestumbral_reply swapped = vestumbral_swap(work, length, images[0], image_len);
    same_replies(swapped, plain_swap(other, length, images[1], image_len));
    same_replies(swapped, vestumbral_swap_by_unit(copy, length, images[2], image_len));
    if (memcmp(work, copy, SIZE) != 0 || memcmp(images[0], images[2], IMAGE_SIZE) != 0)
        fail("the two swaps leave other bytes");
    same_replies(vestumbral_replace(work, SIZE, length, n, code, note, 8 * j),
                 plain_replace(other, SIZE, length, n, code, note, 8 * j));
    same_replies(vestumbral_remove(work, SIZE, length, n), plain_remove(other, SIZE, length, n));
    same_replies(vestumbral_append(work, length + 16 * n, length, code, note, 8 * j),
                 plain_append(other, length + 16 * n, length, code, note, 8 * j));
    if (memcmp(work, other, SIZE) != 0 || memcmp(images[0], images[1], IMAGE_SIZE) != 0)
        fail("plain C leaves other bytes");
    sink += f.refusal == 0;
}

/* Files with bytes changed at random, most of them where a rule looks, and of any length; half of them stay accepted. */
static void compare(void)
{
    enum { FILES = 200000 };
    static const int small[4] = {3, 3, 2, 4};
    static const uint16_t looked[] = {0, 1, 39, 40, 41, 42, 43, 44, 46, 48, 54, 70, 71, 72, 73, 74, 108, 109, 110, 111, 120,
                                      121, 122, 132, 254, 255, 280, 283, 344, 345, 347, 348, 349, 350, 351, 352, 353, 356,
                                      359, 384, 388, 391};
    sink = 0;
    for (int file = 0; file < FILES; file++) {
        size_t length = make(chance(4), small, 4, 16);
        if (chance(4) == 0) {
            memcpy(work + 344, "ni1", 4);
            put32(work + 108, float_bits(chance(64)));
            length = 352 + 32 * chance(4) * work[348];
            length -= chance(2) && length == 352 ? 4 : 0;
        }
        if (chance(2)) {
            /* reserved bytes, and another first byte that says the same; or what follows a file of 348 bytes in its buffer */
            work[348] = length == 348 ? chance(256) : work[348] ? 1 + chance(255) : 0;
            for (int i = 349; i < 352; i++)
                work[i] = chance(256);
        }
        if (chance(2))
            vestumbral_swap(work, length, NULL, 0);
        for (uint32_t changes = chance(3); changes > 0; changes--)
            work[looked[chance(sizeof looked / sizeof *looked)]] = chance(2) ? chance(8) : chance(256);
        if (chance(8) == 0)
            length = chance(length + 1);
        compare_calls(length);
    }
    printf("plain C answers like the library on %d files, %d of them accepted\n", FILES, (int)sink);
    if (sink < FILES / 10 || sink > FILES / 10 * 9)
        fail("too few of these files are accepted, or refused");
}

int main(void)
{
    work = malloc(ROOM);
    other = malloc(ROOM);
    copy = malloc(ROOM);
    if (!work || !other || !copy)
        fail("no memory");
    fill();
    compare();
    printf("ns of one call (of one voxel where %d are located and of a turn, of one piece of 64 MiB), best of %d rounds (%d for "
           "64 MiB, %d for 1 MiB, %d for a turn), buffers written first\n", VOXELS, SMALL_ROUNDS, LARGE_ROUNDS, CACHED_ROUNDS,
           TURN_ROUNDS);
    printf("a ratio is the library's time over the other's\n");
    printf("%-15s %-26s %14s %9s %9s %9s %9s\n", "call", "input", "ns", "/memcpy", "/memmove", "/plain C", "/whole");
    static const int counts[4] = {0, 1, 8, 64};
    for (int big = 0; big < 2; big++)
        for (int i = 0; i < 4; i++)
            small_rows(counts[i], big);
    voxel_rows(0);
    voxel_rows(64);
    fill();
    swap_rows();
    slide_rows();
    piece_rows();
    fill();
    line_rows();
    fill();
    turn_rows();
    free(work);
    free(other);
    free(copy);
    return 0;
}
