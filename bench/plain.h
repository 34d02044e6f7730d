/*
 * The library's calls written plainly in C, those that have a second engine once (plain.c, plain_pieces.c for a file in pieces,
 * plain_turn.c for a turn): same arguments, same answers, same bytes left in every buffer. But plain_voxel_in is for single files
 * that were read, and judges nothing but the struct's own refusal and 17.
 */
#ifndef BENCH_PLAIN_H
#define BENCH_PLAIN_H

#include "vestumbral.h"

vestumbral_file plain_read(const uint8_t *file, size_t file_len);
vestumbral_extension plain_extension_at(const uint8_t *file, size_t file_len, uint64_t number);
vestumbral_reply plain_voxel(const uint8_t *file, size_t file_len, const uint8_t *image, size_t image_len,
                             uint64_t i1, uint64_t i2, uint64_t i3, uint64_t i4, uint64_t i5, uint64_t i6, uint64_t i7);
vestumbral_reply plain_voxel_in(vestumbral_file file, uint64_t image_len,
                                uint64_t i1, uint64_t i2, uint64_t i3, uint64_t i4, uint64_t i5, uint64_t i6, uint64_t i7);
vestumbral_slice plain_slice_at(const uint8_t *file, size_t file_len, uint64_t slice);
vestumbral_ranked plain_slice_of_rank(const uint8_t *file, size_t file_len, uint64_t rank);
vestumbral_position plain_position_of(const uint8_t *file, size_t file_len, uint64_t i, uint64_t j, uint64_t k);
vestumbral_reply plain_swap(uint8_t *file, size_t file_len, uint8_t *image, size_t image_len);
vestumbral_reply plain_append(uint8_t *buffer, size_t buffer_len, uint64_t file_len,
                              int32_t code, const uint8_t *payload, size_t payload_len);
vestumbral_reply plain_replace(uint8_t *buffer, size_t buffer_len, uint64_t file_len, uint64_t number,
                               int32_t code, const uint8_t *payload, size_t payload_len);
vestumbral_reply plain_remove(uint8_t *buffer, size_t buffer_len, uint64_t file_len, uint64_t number);
vestumbral_pieces plain_pieces_start(void);
vestumbral_taken plain_pieces_take(vestumbral_pieces pieces, const uint8_t *piece, size_t piece_len);
vestumbral_file plain_pieces_file(vestumbral_pieces pieces);
vestumbral_extension plain_pieces_extension_at(vestumbral_pieces pieces, uint64_t number);
vestumbral_turned plain_turn(const uint8_t *file, size_t file_len, const uint8_t *image, size_t image_len,
                             uint64_t axis1, uint64_t axis2, uint64_t axis3,
                             uint64_t reverse1, uint64_t reverse2, uint64_t reverse3,
                             uint8_t *out, size_t out_len, uint8_t *out_image, size_t out_image_len);

vestumbral_reply plain_line(const uint8_t *file, size_t file_len, const uint8_t *image, size_t image_len, uint64_t axis,
                            uint64_t i1, uint64_t i2, uint64_t i3, uint64_t i4, uint64_t i5, uint64_t i6, uint64_t i7,
                            uint8_t *out, size_t out_len);

/* The loop alone: voxels of 1, 2, 3, 4, 8, 16 or 32 bytes that lie `step` bytes apart, one after another into `out`. */
void plain_steps(uint8_t *out, const uint8_t *from, uint64_t step, uint64_t count, size_t bytes);

/* Where a voxel is and how many bytes it has; 0 and 0 where an index is outside. The file was read before and is accepted. */
typedef struct {
    uint64_t place, length;
} plain_place;

plain_place plain_place_of(const vestumbral_file *file,
                           uint64_t i1, uint64_t i2, uint64_t i3, uint64_t i4, uint64_t i5, uint64_t i6, uint64_t i7);

#endif
