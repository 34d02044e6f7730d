/*
 * The console's work with a series, in memory: make file A of 01-scope.md, read it, add a note as a header extension, see that the
 * voxel offset moved with it and that no voxel changed, take the note out again, and be refused on a damaged file. Any surprise
 * ends the program with status 1.
 */
#include "vestumbral.h"

#include <inttypes.h>
#include <stdio.h>
#include <stdlib.h>
#include <string.h>

enum { FILE_A = 364, BUFFER = 512 };

static void expect(int fact, const char *what)
{
    if (!fact) {
        printf("unexpected: %s\n", what);
        exit(1);
    }
}

/* A little-endian single file of 3 x 2 signed 16-bit voxels, 364 bytes; the voxels hold 100, 101, .. 105. */
static void make_file_a(uint8_t *file)
{
    static const uint8_t offset_352[4] = {0x00, 0x00, 0xb0, 0x43};
    memset(file, 0, FILE_A);
    file[0] = 348 & 255; /* sizeof_hdr */
    file[1] = 348 >> 8;
    file[40] = 2; /* dim */
    file[42] = 3;
    file[44] = 2;
    file[70] = 4; /* datatype */
    file[72] = 16; /* bitpix */
    memcpy(file + 108, offset_352, 4); /* vox_offset, binary32 */
    memcpy(file + 344, "n+1", 4); /* magic */
    for (int i = 0; i < 6; i++)
        file[352 + 2 * i] = (uint8_t)(100 + i);
}

static void show_series(const uint8_t *buffer, uint64_t length)
{
    vestumbral_file file = vestumbral_read(buffer, (size_t)length);
    expect(file.refusal == 0, "the file is refused");
    printf("  %s file, %s byte order, %" PRIu64 " bytes\n", file.pair ? "pair's header" : "single",
           file.big_endian ? "big" : "little", length);
    printf("  dims");
    for (int i = 1; i <= file.dim[0]; i++)
        printf(" %d", file.dim[i]);
    printf(", type %d, %d bits a voxel\n", file.datatype, file.bitpix);
    printf("  data %" PRIu64 " bytes from %" PRIu64 ", extensions: %" PRIu32 "\n", file.data_bytes, file.data_offset,
           file.extensions);
    for (uint32_t i = 0; i < file.extensions; i++) {
        vestumbral_extension extension = vestumbral_extension_at(buffer, (size_t)length, i);
        expect(extension.refusal == 0, "a counted extension is refused");
        printf("  extension %" PRIu32 " at %" PRIu64 ", %" PRId32 " bytes, code %" PRId32 ": %.*s\n", i, extension.start,
               extension.size, extension.code, extension.size - 8, (const char *)buffer + extension.start + 8);
    }
}

/* Voxel (2, 1), shown and handed back. */
static vestumbral_reply show_voxel(const uint8_t *buffer, uint64_t length)
{
    vestumbral_reply voxel = vestumbral_voxel(buffer, (size_t)length, NULL, 0, 2, 1, 0, 0, 0, 0, 0);
    expect(voxel.refusal == 0 && voxel.length == 2, "voxel (2, 1) is refused");
    printf("  voxel (2, 1) at %" PRIu64 ", %" PRIu64 " bytes: %02x %02x\n", voxel.place, voxel.length, buffer[voxel.place],
           buffer[voxel.place + 1]);
    return voxel;
}

int main(void)
{
    static const char note[] = "patient moved";
    uint8_t buffer[BUFFER] = {0}, before[BUFFER];

    puts("the series as it came:");
    make_file_a(buffer);
    memcpy(before, buffer, BUFFER);
    show_series(buffer, FILE_A);
    vestumbral_reply old_voxel = show_voxel(buffer, FILE_A);
    uint64_t old_offset = vestumbral_read(buffer, FILE_A).data_offset;

    puts("a note added:");
    vestumbral_reply added = vestumbral_append(buffer, BUFFER, FILE_A, 6, (const uint8_t *)note, sizeof note - 1);
    expect(added.refusal == 0, "the note is refused");
    show_series(buffer, added.length);
    vestumbral_reply new_voxel = show_voxel(buffer, added.length);
    uint64_t new_offset = vestumbral_read(buffer, (size_t)added.length).data_offset;
    printf("  vox_offset moved by %" PRIu64 ", the voxel by %" PRIu64 "\n", new_offset - old_offset,
           new_voxel.place - old_voxel.place);
    expect(new_offset - old_offset == new_voxel.place - old_voxel.place, "the voxel did not move with vox_offset");
    expect(memcmp(buffer + new_offset, before + old_offset, 12) == 0, "the image changed");
    puts("  all 12 image bytes are as they were");

    puts("the note taken out:");
    vestumbral_reply removed = vestumbral_remove(buffer, BUFFER, added.length, 0);
    expect(removed.refusal == 0 && removed.length == FILE_A, "the removal is refused");
    expect(memcmp(buffer, before, BUFFER) == 0, "the buffer is not as before");
    printf("  %" PRIu64 " bytes, every one as before\n", removed.length);

    puts("a note with a damaged size field:");
    added = vestumbral_append(buffer, BUFFER, FILE_A, 6, (const uint8_t *)note, sizeof note - 1);
    expect(added.refusal == 0, "the note is refused");
    buffer[352] = 24; /* an extension's size is a multiple of 16 */
    memcpy(before, buffer, BUFFER);
    vestumbral_file damaged = vestumbral_read(buffer, (size_t)added.length);
    printf("  refused %" PRIu64 " at %" PRIu64 "\n", damaged.refusal, damaged.place);
    expect(damaged.refusal == 13 && damaged.place == 352, "another refusal than 13 at 352");
    vestumbral_reply edit = vestumbral_remove(buffer, BUFFER, added.length, 0);
    expect(edit.refusal == 13 && edit.place == 352, "an edit of the damaged file is not refused alike");
    expect(memcmp(buffer, before, BUFFER) == 0, "a refused edit changed the buffer");
    puts("  an edit is refused alike and leaves every byte");
    return 0;
}
