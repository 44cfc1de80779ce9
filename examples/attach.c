/*
 * Attaches a VHDX file in memory and says where its first sector is. The file itself is not changed.
 *
 *   cc -std=c11 -Iinclude examples/attach.c crates/capi/out/libcapi.a -o attach
 */
#include "shrunvaki.h"
#include <inttypes.h>
#include <stdio.h>
#include <stdlib.h>

/* How much a pending log may grow the image by, and how many sectors it may have written: a hostile one names billions. */
#define GROWTH ((size_t)64 << 20)
#define MAX_SECTORS ((uint64_t)1 << 20)

int main(int argc, char **argv)
{
    if (argc != 2) {
        fprintf(stderr, "usage: %s FILE\n", argv[0]);
        return 2;
    }
    FILE *file = fopen(argv[1], "rb");
    long size = file && !fseek(file, 0, SEEK_END) ? ftell(file) : -1;
    size_t capacity = (size_t)size + GROWTH;
    uint8_t *buffer = size < 0 ? NULL : calloc(capacity, 1);
    if (!buffer || fseek(file, 0, SEEK_SET) || fread(buffer, 1, (size_t)size, file) != (size_t)size) {
        fprintf(stderr, "cannot read %s into memory\n", argv[1]);
        return 2;
    }
    fclose(file);

    uint64_t plan[4];
    shrunvaki_vhdx_plan(buffer, capacity, (uint64_t)size, plan);
    if (plan[SHRUNVAKI_COUNT] > MAX_SECTORS) {
        printf("its log asks for %" PRIu64 " sectors to be written\n", plan[SHRUNVAKI_COUNT]);
        return 1;
    }
    uint64_t disk[SHRUNVAKI_SLOTS];
    uint64_t refusal = shrunvaki_vhdx_attach(buffer, capacity, (uint64_t)size, disk);
    printf("length: %" PRIu64 "\n", disk[SHRUNVAKI_LENGTH]);
    printf("sectors written: %" PRIu64 "\n", disk[SHRUNVAKI_COUNT]);
    if (refusal) {
        printf("refused: %" PRIu64 ": %s\n", refusal, shrunvaki_vhdx_refusal_text(refusal));
        return 1;
    }
    printf("disk size: %" PRIu64 "\n", disk[SHRUNVAKI_DISK_SIZE]);
    printf("block size: %" PRIu64 "\n", disk[SHRUNVAKI_BLOCK_SIZE]);

    uint64_t place[2];
    shrunvaki_vhdx_lookup(disk, buffer, capacity, disk[SHRUNVAKI_LENGTH], 0, place);
    switch (place[0]) {
    case SHRUNVAKI_FILE: printf("sector 0: in the file at %" PRIu64 "\n", place[1]); break;
    case SHRUNVAKI_ZERO: puts("sector 0: zero"); break;
    case SHRUNVAKI_PARENT: puts("sector 0: in the parent"); break;
    default: printf("sector 0: refused, %" PRIu64 ": %s\n", place[1], shrunvaki_vhdx_refusal_text(place[1]));
    }
    free(buffer);
    return 0;
}
