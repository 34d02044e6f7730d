/*
 * Turning a volume, in memory: make a single file of 3 x 2 x 2 voxels, turn it a quarter about axis 3, see that a voxel keeps its
 * position, turn it back, and be refused for an axis that is named twice. Any surprise ends the program with status 1.
 */
#include "vestumbral.h"

#include <inttypes.h>
#include <stdio.h>
#include <stdlib.h>
#include <string.h>

enum { OFFSET = 352, VOXELS = 12, VOLUME = OFFSET + VOXELS };

static void expect(int fact, const char *what)
{
    if (!fact) {
        printf("unexpected: %s\n", what);
        exit(1);
    }
}

static void put_float(uint8_t *to, float value)
{
    uint32_t bits;
    memcpy(&bits, &value, sizeof bits);
    for (int i = 0; i < 4; i++)
        to[i] = bits >> 8 * i & 255;
}

static float get_float(const uint8_t *from)
{
    uint32_t bits = from[0] | (uint32_t)from[1] << 8 | (uint32_t)from[2] << 16 | (uint32_t)from[3] << 24;
    float value;
    memcpy(&value, &bits, sizeof value);
    return value;
}

/* A little-endian single file of 8-bit voxels; voxel (i, j, k) holds 100 i + 10 j + k. */
static void make_volume(uint8_t *file)
{
    static const float pixdim[3] = {3, 6, 9};
    static const float srow[3][4] = {{2, 4, -3, -10}, {-1, 4, 6, -20}, {2, -2, 6, -30}};
    memset(file, 0, VOLUME);
    file[0] = 348 & 255; /* sizeof_hdr */
    file[1] = 348 >> 8;
    file[40] = 3; /* dim */
    file[42] = 3;
    file[44] = 2;
    file[46] = 2;
    file[70] = 2; /* datatype */
    file[72] = 8; /* bitpix */
    file[252] = 1; /* qform_code */
    file[254] = 1; /* sform_code */
    put_float(file + 108, OFFSET); /* vox_offset */
    for (int i = 0; i < 3; i++) {
        put_float(file + 80 + 4 * i, pixdim[i]);
        for (int j = 0; j < 4; j++)
            put_float(file + 280 + 16 * i + 4 * j, srow[i][j]);
    }
    memcpy(file + 344, "n+1", 4); /* magic */
    for (int i = 0; i < VOXELS; i++)
        file[OFFSET + i] = (uint8_t)(100 * (i % 3) + 10 * (i / 3 % 2) + i / 6);
}

static void show_volume(const uint8_t *file, uint64_t length)
{
    vestumbral_file volume = vestumbral_read(file, (size_t)length);
    expect(volume.refusal == 0 && volume.data_bytes == VOXELS, "the file is refused");
    printf("  dims %d %d %d, pixdims %g %g %g, qform_code %d\n", volume.dim[1], volume.dim[2], volume.dim[3],
           get_float(file + 80), get_float(file + 84), get_float(file + 88), file[252]);
    for (int i = 0; i < 3; i++) {
        const uint8_t *row = file + 280 + 16 * i;
        printf("  srow_%c %g %g %g %g\n", 'x' + i, get_float(row), get_float(row + 4), get_float(row + 8), get_float(row + 12));
    }
    printf("  image");
    for (int i = 0; i < VOXELS; i++)
        printf(" %d", file[volume.data_offset + i]);
    printf("\n");
}

/* Voxel (i, j, k), shown; its position is handed back. */
static vestumbral_position show_voxel(const uint8_t *file, uint64_t length, uint64_t i, uint64_t j, uint64_t k)
{
    vestumbral_reply voxel = vestumbral_voxel(file, (size_t)length, NULL, 0, i, j, k, 0, 0, 0, 0);
    vestumbral_position position = vestumbral_position_of(file, (size_t)length, i, j, k);
    expect(voxel.refusal == 0 && position.refusal == 0, "a voxel is refused");
    printf("  voxel (%" PRIu64 ", %" PRIu64 ", %" PRIu64 ") holds %d and is at (%g, %g, %g)\n", i, j, k, file[voxel.place],
           position.x, position.y, position.z);
    return position;
}

int main(void)
{
    uint8_t file[VOLUME], turned[VOLUME], back[VOLUME];

    puts("the volume as it came:");
    make_volume(file);
    show_volume(file, VOLUME);
    vestumbral_position before = show_voxel(file, VOLUME, 2, 0, 1);

    puts("a quarter turn: axes 2 1 3, old axis 2 reversed:");
    vestumbral_turned turn = vestumbral_turn(file, VOLUME, NULL, 0, 2, 1, 3, 0, 1, 0, turned, sizeof turned, NULL, 0);
    expect(turn.refusal == 0 && turn.length == VOLUME && turn.image_length == 0, "the turn is refused");
    show_volume(turned, turn.length);
    vestumbral_position after = show_voxel(turned, turn.length, 1, 2, 1);
    expect(before.x == after.x && before.y == after.y && before.z == after.z, "the voxel is at another position");

    puts("the turn back: axes 2 1 3, axis 1 reversed, which was axis 2:");
    turn = vestumbral_turn(turned, (size_t)turn.length, NULL, 0, 2, 1, 3, 1, 0, 0, back, sizeof back, NULL, 0);
    expect(turn.refusal == 0 && turn.length == VOLUME, "the turn back is refused");
    show_volume(back, turn.length);
    show_voxel(back, turn.length, 2, 0, 1);
    expect(memcmp(back + 40, file + 40, 8) == 0 && memcmp(back + 76, file + 76, 16) == 0, "dims or pixdims are not as before");
    expect(memcmp(back + OFFSET, file + OFFSET, VOXELS) == 0, "the image is not as before");
    puts("  all 12 image bytes are as they were");

    puts("axes 1 1 3:");
    memcpy(turned, back, VOLUME);
    turn = vestumbral_turn(file, VOLUME, NULL, 0, 1, 1, 3, 0, 0, 0, turned, sizeof turned, NULL, 0);
    printf("  refused %" PRIu64 " at %" PRIu64 "\n", turn.refusal, turn.place);
    expect(turn.refusal == 30 && turn.place == 0 && turn.length == 0, "another refusal than 30 at 0");
    expect(memcmp(turned, back, VOLUME) == 0, "a refused turn changed the buffer");
    puts("  a refused turn leaves every byte of its buffer");
    return 0;
}
