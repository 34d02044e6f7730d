/*
 * Vestumbral: NIfTI-1 files, single (magic "n+1") and pair (magic "ni1"), of either byte order, for a C program.
 *
 * The rules are those of the project's papers 01-scope.md and 02-change-requests.md; here is what a caller needs of them.
 *
 * Every call takes any bytes and any numbers, ends, and answers by value; what it writes goes to buffers that the caller lends.
 * There is no global state, no allocation and nothing to free. An answer begins with `refusal`, 0 for done, else a number of the
 * table below, and `place`, the place in the file that the refusal speaks of. After a refusal every lent buffer has the bytes that
 * it had.
 *
 * A `file` is a whole single file, or the header file of a pair. An `image` is the image file of a pair. For a single file the
 * image arguments are neither read nor changed; pass NULL and 0. A call that fills an `out` answers how many bytes it wrote; all
 * past them stay as they were.
 *
 * What the caller owes:
 *   - Each pointer points to at least as many bytes as the length after it says, and nothing else writes them during the call.
 *     NULL with length 0 is an empty buffer.
 *   - Where a call writes (both lines, both swaps, append, replace, remove, turn), what it writes overlaps nothing else that it is
 *     given: not `file` and `image`, not `buffer` and `payload`, not `out` or `out_image` and any other buffer of the call.
 *   - vestumbral_slice_at, vestumbral_position_of and, of a file whose sform_code is above 0, vestumbral_turn compute in binary32
 *     and are called in the default floating-point state: round to nearest, no exception trapped, neither flush-to-zero nor
 *     denormals-are-zero (a program linked with -ffast-math starts with both). In another state a time, a position or a turned srow
 *     number may be another number, and so may what hangs on it: a slice's state and refusal 23. Read, extension_at, voxel,
 *     voxel_in, both lines, slice_of_rank, both swaps, the edits, the calls for pieces and any other turn do not depend on that
 *     state.
 *   - The stack has room: a turn takes some 72 KiB of it, every other call less than 8.
 *
 * The refusals. They are tried in the order of their numbers, but 24 and 25 before anything else by the calls that give them, and
 * by a turn 29 and 30, then 23, then 22. At each extension 15 is tried, then 13, then 14.
 *
 *   No  given when                                                                              place
 *    1  fewer than 348 bytes                                                                    0
 *    2  dim[0] is in 1..7 in neither byte order                                                 40
 *    3  sizeof_hdr is not 348 in that order                                                     0
 *    4  the magic is neither 6E 69 31 00 nor 6E 2B 31 00                                        344
 *    5  some dim[i], i in 1..dim[0], is below 1                                                 40 + 2i, least i
 *    6  the datatype is not 2, 4, 8, 16, 32, 64, 128, 256, 512, 768, 1024, 1280, 1536, 1792,
 *       2048 or 2304                                                                            70
 *    7  bitpix is not the datatype's                                                            72
 *    8  vox_offset is not finite, is below zero, or has a fraction                              108
 *    9  single: vox_offset below 352 or above 134217728; pair: vox_offset above that, or a
 *       header file longer than that                                                            108
 *   10  more than 1099511627776 image bytes                                                     40
 *   11  single: file shorter than vox_offset + image bytes                                      108
 *   12  pair of 349..351 bytes                                                                  348
 *   13  an extension's size is not a positive multiple of 16, or fewer than 16 bytes are left,
 *       or it passes the region's end                                                           its start
 *   14  an extension's code is negative                                                         its start + 4
 *   15  a 65th extension would begin                                                            its start
 *   16  pair: image file shorter than vox_offset + image bytes                                  0
 *   17  a voxel or slice index outside its axis; of a line also an axis number that is not in
 *       1..dim[0]; of slice_of_rank a rank that no slice has                                    0
 *   18  no extension with that number; the first is 0                                           0
 *   19  the code offered is negative                                                            0
 *   20  append where the extender's first byte is zero and bytes already follow 352 in the
 *       region                                                                                  0
 *   21  the edited file would have 65 extensions, or its region would end past 134217728        0
 *   22  the result is longer than the buffer; of a turn, than either buffer                     0
 *   23  no position; of a turn, sform_code is above 0 and a new srow number is not finite       0
 *   24  the stated file length is above the buffer's length                                     0
 *   25  a piece would make the file longer than 2199023255552 bytes                             0
 *   26  a stored size is wrong: by data_bytes and step the voxel has no byte, data_bytes is
 *       above 1099511627776, or the voxel ends past data_bytes                                  0
 *   29  fewer than three dims                                                                   0
 *   30  the three axes named are not 1, 2 and 3, each once                                      0
 *
 * The extender is the four bytes at 348. Its first byte says whether extensions follow: zero for none, anything else for at least
 * one. The other three are reserved: no call judges them, and every call that writes keeps them. A pair's header file of 348 bytes
 * is read as one with the extender 0,0,0,0.
 *
 * The extension region begins at 352. It ends at vox_offset in a single file and at the file's end in a pair's header file. Without
 * extensions its bytes are private and are not read.
 */
#ifndef VESTUMBRAL_H
#define VESTUMBRAL_H

#include <stddef.h>
#include <stdint.h>

/* Counts up by one each time a struct of this header grows. A program is compiled against the header of the archive that it links. */
#define VESTUMBRAL_INTERFACE 3

#ifdef __cplusplus
extern "C" {
#endif

/* The answer of voxel, voxel_in, line, line_by_voxel, swap, swap_by_unit, append, replace and remove. */
typedef struct {
    uint64_t refusal;     /* 0: done; else a number of the table */
    uint64_t place;       /* of a refusal its place; of a voxel its place; else 0 */
    uint64_t length;      /* of a voxel its bytes; of a line the bytes written; of an edit the new file length; else 0, and 0 in
                           * every refusal */
    uint64_t aligned;     /* of an edit 1 where the new file's vox_offset is a multiple of 16, which a single file's always is; else 0 */
} vestumbral_reply;

/* What reading a file answers. On a refusal every field after place is 0. */
typedef struct {
    uint64_t refusal, place;
    uint64_t data_offset; /* vox_offset as a whole number */
    uint64_t data_bytes;  /* image bytes: dim[1] x .. x dim[dim[0]] x bitpix / 8 */
    uint32_t big_endian;  /* 0 little, 1 big */
    uint32_t pair;        /* 0 single, 1 pair */
    int16_t  dim[8];      /* dim[0] is the number of axes; entries after dim[dim[0]] are as stored */
    int16_t  datatype, bitpix;
    uint32_t extensions;  /* how many, 0..64 */
    uint64_t step[7];     /* how many bytes on the next voxel along axis 1..7 is: bitpix / 8 times the lengths of the axes before it; of
                           * an axis after dim[0] data_bytes */
    uint32_t aligned;     /* 1 where data_offset is a multiple of 16, as 0 is; else 0. Advice: no file is refused for it */
} vestumbral_file;

/* One extension. On a refusal start, size and code are 0. */
typedef struct {
    uint64_t refusal, place;
    uint64_t start;       /* where its size field stands; code at start + 4, payload at start + 8 */
    int32_t  size, code;  /* size counts the 8 bytes of size and code too */
} vestumbral_extension;

/* One slice. */
typedef struct {
    uint64_t refusal, place;
    uint32_t state;       /* 0 unstated, 1 padding, 2 timed; 0 on a refusal */
    uint32_t rank;        /* its turn, the first slice acquired has 0; 0 unless timed */
    float    seconds;     /* rank x slice_duration in binary32, in the file's own time unit; 0 unless timed */
} vestumbral_slice;

/* The slice of a rank. */
typedef struct {
    uint64_t refusal, place;
    uint32_t stated;      /* 1 where timing is stated, else 0; 0 on a refusal */
    uint32_t slice;       /* its index on the slice axis; 0 unless stated */
} vestumbral_ranked;

/* A position by Method 3 (the srow numbers). x, y and z are +0 on a refusal. */
typedef struct {
    uint64_t refusal, place;
    float x, y, z;
} vestumbral_position;

/*
 * The state of reading a file in pieces, whatever the file's length. It is a value: copy it, keep it, hand it on. It has no payload
 * and no voxel byte. Its members are the library's own; they are declared so that C knows the size, 896 bytes.
 */
typedef struct {
    uint64_t taken;       /* bytes so far */
    uint8_t  front[352];  /* the first 352 of them */
    uint64_t at, count;   /* where the next extension begins, and how many came whole */
    uint8_t  coming[8];   /* its first eight bytes, as far as they have come */
    struct {
        int32_t size, code;
    } marks[64];          /* of the extensions that came whole */
} vestumbral_pieces;

/* The answer of taking a piece. On a refusal `pieces` is the state that was handed in. */
typedef struct {
    uint64_t refusal, place;
    vestumbral_pieces pieces;
} vestumbral_taken;

/* The answer of a turn. Both lengths are 0 on a refusal. */
typedef struct {
    uint64_t refusal, place;
    uint64_t length;       /* of the new file, which is as long as the old one */
    uint64_t image_length; /* of a pair's new image file, which is as long as the old one; 0 for a single file */
} vestumbral_turned;

/* What the file is. Refusals 1..15. */
vestumbral_file vestumbral_read(const uint8_t *file, size_t file_len);

/* Where extension `number` stands, its size and its code. Refusals 1..15, then 18. */
vestumbral_extension vestumbral_extension_at(const uint8_t *file, size_t file_len, uint64_t number);

/*
 * The voxel with seven indexes from 0, the first varying fastest; those after dim[0] must be 0. Answers where its bytes begin, in
 * the file (single) or in the image file (pair), and how many they are. Refusals 1..15, 16 for a pair, then 17.
 */
vestumbral_reply vestumbral_voxel(const uint8_t *file, size_t file_len, const uint8_t *image, size_t image_len,
                                  uint64_t i1, uint64_t i2, uint64_t i3, uint64_t i4, uint64_t i5, uint64_t i6, uint64_t i7);

/*
 * The same voxel of a file that was read before, by what vestumbral_read or vestumbral_pieces_file answered: the file is not read
 * again and no dims are multiplied, the place is data_offset + i1 x step[0] + .. + i7 x step[6]. image_len is the length of a pair's
 * image file; for a single file it is not looked at. Of an answer of these calls it answers what vestumbral_voxel answers of the
 * file. Any other struct has an answer too, without wrap: a place that it answers is inside data_bytes.
 *
 * Refusals: where file.refusal is not 0 that and file.place. Then 2 (dim[0] is not in 1..7), 9 (data_offset), 16 for a pair, 17, 26.
 */
vestumbral_reply vestumbral_voxel_in(vestumbral_file file, uint64_t image_len,
                                     uint64_t i1, uint64_t i2, uint64_t i3, uint64_t i4, uint64_t i5, uint64_t i6, uint64_t i7);

/*
 * Copies out a line: all voxels along axis `axis`, one of 1..dim[0], through the voxel with these seven indexes, to the front of
 * `out`. They come in the order of their index on that axis, from 0 to dim[axis] - 1, whichever of them the seven name; the index
 * on that axis is judged all the same. `length` answers the bytes written, dim[axis] x bitpix / 8. `file`, `image` and bytes past
 * the line stay.
 *
 * Refusals 1..15, 16 for a pair, 17, then 22: `out` is shorter than the line.
 */
vestumbral_reply vestumbral_line(const uint8_t *file, size_t file_len, const uint8_t *image, size_t image_len, uint64_t axis,
                                 uint64_t i1, uint64_t i2, uint64_t i3, uint64_t i4, uint64_t i5, uint64_t i6, uint64_t i7,
                                 uint8_t *out, size_t out_len);

/* The same answers and bytes as vestumbral_line on any input, refused or not; each voxel is located by itself, which is slower. */
vestumbral_reply vestumbral_line_by_voxel(const uint8_t *file, size_t file_len, const uint8_t *image, size_t image_len,
                                          uint64_t axis,
                                          uint64_t i1, uint64_t i2, uint64_t i3, uint64_t i4, uint64_t i5, uint64_t i6, uint64_t i7,
                                          uint8_t *out, size_t out_len);

/*
 * When slice `slice` of the slice axis was acquired. Refusals 1..15, then 17, which is given only where timing is stated; where it
 * is not, every slice is unstated. A slice whose time would be infinite is unstated too.
 */
vestumbral_slice vestumbral_slice_at(const uint8_t *file, size_t file_len, uint64_t slice);

/*
 * Which slice was acquired at turn `rank`, the first has 0: the one slice of slice_start..slice_end with that rank. Where timing is
 * stated, every rank below N = slice_end - slice_start + 1 has its slice. Refusals 1..15, then 17 for a rank of N or more, which is
 * given only where timing is stated. The time is not looked at: a slice whose time would be infinite is answered like any other.
 */
vestumbral_ranked vestumbral_slice_of_rank(const uint8_t *file, size_t file_len, uint64_t rank);

/*
 * The position of voxel (i, j, k), each coordinate ((s0 x i + s1 x j) + s2 x k) + s3 in binary32, rounded after each operation. An
 * axis after dim[0] has length 1. Refusals 1..15, 17, then 23: sform_code is not above 0, or an srow number or a result is not
 * finite.
 */
vestumbral_position vestumbral_position_of(const uint8_t *file, size_t file_len, uint64_t i, uint64_t j, uint64_t k);

/*
 * Turns the file to the other byte order in place: every number of the header, each extension's size and code, and each swap unit of
 * the image. Texts, the extender, payloads, private bytes, an image file's front and bytes after the image stay. Refusals 1..15, then
 * 16 for a pair.
 */
vestumbral_reply vestumbral_swap(uint8_t *file, size_t file_len, uint8_t *image, size_t image_len);

/* The same answers and bytes as vestumbral_swap on any input, refused or not; one unit of the image after the other, and slower. */
vestumbral_reply vestumbral_swap_by_unit(uint8_t *file, size_t file_len, uint8_t *image, size_t image_len);

/*
 * The three edits work in place. The file is the first file_len bytes of the buffer. `length` answers its new length, and `aligned`
 * whether its vox_offset is a multiple of 16. In a single file vox_offset is set anew and the bytes from it to the file's end move
 * along; in a pair vox_offset stays. When the file shrinks, the freed bytes become zero. Bytes past both lengths keep their content.
 *
 * The extender's first byte becomes 1, or 0 where no extension is left, and its three reserved bytes are kept. A pair's header file
 * of 348 bytes gains 1,0,0,0, whatever the buffer has there.
 *
 * A stored extension takes the least multiple of 16 that is at least payload_len + 8 bytes; the spare ones are zero. So an append
 * makes the file longer by that much, and by 4 more where a pair's header file has 348 bytes.
 *
 * Refusals: 24, 1..15, then those named below.
 */

/* Adds an extension after the last. 19, 20, 21, 22. */
vestumbral_reply vestumbral_append(uint8_t *buffer, size_t buffer_len, uint64_t file_len,
                                   int32_t code, const uint8_t *payload, size_t payload_len);

/* Puts an extension in the place of extension `number`. 18, 19, 21, 22. */
vestumbral_reply vestumbral_replace(uint8_t *buffer, size_t buffer_len, uint64_t file_len, uint64_t number,
                                    int32_t code, const uint8_t *payload, size_t payload_len);

/* Takes extension `number` out. Where none is left the extender's first byte becomes 0 and the region ends at 352. 18. */
vestumbral_reply vestumbral_remove(uint8_t *buffer, size_t buffer_len, uint64_t file_len, uint64_t number);

/*
 * A file that comes in pieces: start, take each piece as it comes, ask at the end. However the file is cut, the answer is that of
 * the whole-file call on the joined bytes. Asked before the end it is that of the bytes so far, and the state may be fed on. A
 * refused piece is not taken at all; a shorter one may be taken afterwards. All this is said of states that come from a start by
 * taking pieces; any other state gets an answer too, but which one is not said.
 */

/* The state in which no byte has been taken. */
vestumbral_pieces vestumbral_pieces_start(void);

/* Takes a piece of any length, 0 too, up to 2199023255552 bytes in all. 25. */
vestumbral_taken vestumbral_pieces_take(vestumbral_pieces pieces, const uint8_t *piece, size_t piece_len);

/* vestumbral_read of the joined bytes. Refusals 1..15. */
vestumbral_file vestumbral_pieces_file(vestumbral_pieces pieces);

/* vestumbral_extension_at of the joined bytes. Refusals 1..15, then 18. */
vestumbral_extension vestumbral_pieces_extension_at(vestumbral_pieces pieces, uint64_t number);

/*
 * Makes a file in `out` with axes 1 to 3 in another order: new axis k shows old axis `axisk`, which is 1, 2 or 3, and old axis k is
 * reversed where `reversek` is not 0. Higher axes go along. `file` and `image` stay. A pair's new image file goes to `out_image`;
 * of a single file that buffer is neither read nor changed. Each new file is as long as its old one, and bytes past it stay.
 *
 * Each voxel has the bytes of the voxel that it came from, and dim and pixdim 1 to 3 those of the axis that is shown. qform_code,
 * dim_info and slice_code become 0, by any turn. Where sform_code is above 0, a reversed axis of n voxels has column x (n - 1)
 * added to the shift of each srow row, for the old axes 1 to 3 in this order, in binary32, the product and the sum each rounded;
 * then the columns of the reversed axes are negated, and then the columns permuted. Where it is not, the rows stay as they are. All
 * else is copied: the extender, extensions, private bytes, an image file's front and bytes after the image.
 *
 * Refusals 1..15, 16 for a pair, 29, 30, 23, then 22: `out` is shorter than `file`, or for a pair `out_image` than `image`.
 */
vestumbral_turned vestumbral_turn(const uint8_t *file, size_t file_len, const uint8_t *image, size_t image_len,
                                  uint64_t axis1, uint64_t axis2, uint64_t axis3,
                                  uint64_t reverse1, uint64_t reverse2, uint64_t reverse3,
                                  uint8_t *out, size_t out_len, uint8_t *out_image, size_t out_image_len);

#ifdef __cplusplus
}
#endif

#endif
