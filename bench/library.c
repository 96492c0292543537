/* Decodes a FLAC file by the library for C, and prints the sum of all samples modulo 2^64. With INTERLEAVED the samples of a
   block are interleaved. */
#include <inttypes.h>
#include <stdio.h>
#include <stdlib.h>

#include "claxon.h"

#ifdef INTERLEAVED
#define NEXT_BLOCK claxon_next_block
#else
#define NEXT_BLOCK claxon_next_block_planar
#endif

static int add(const uint8_t *bytes, size_t length, uint64_t *sum) {
    static int32_t samples[CLAXON_MAX_SAMPLES];
    struct claxon_info info = {0};
    struct claxon_block block;
    char error[128] = "";
    uint32_t status = claxon_open(bytes, length, &info, error, sizeof error);
    size_t at = info.first_frame;
    while (status == CLAXON_OK) {
        status = NEXT_BLOCK(bytes, length, &at, &info, samples, CLAXON_MAX_SAMPLES, &block, error, sizeof error);
        if (status == CLAXON_OK) {
            uint64_t total = 0;
            for (size_t i = 0; i < (size_t)block.channels * block.duration; i++) {
                total += (uint64_t)(int64_t)samples[i];
            }
            *sum += total;
        }
    }
    if (status != CLAXON_NO_MORE) {
        fprintf(stderr, "library: %s\n", error);
    }
    return status != CLAXON_NO_MORE;
}

int main(int argc, char **argv) {
    uint64_t sum = 0;
    FILE *file = argc == 2 ? fopen(argv[1], "rb") : NULL;
    if (!file || fseek(file, 0, SEEK_END) != 0) {
        fprintf(stderr, "usage: library FILE\n");
        return 2;
    }
    size_t length = (size_t)ftell(file);
    uint8_t *bytes = malloc(length + 1);
    rewind(file);
    int failed = !bytes || fread(bytes, 1, length, file) != length || add(bytes, length, &sum);
    free(bytes);
    fclose(file);
    printf("%" PRIu64 "\n", sum);
    return failed;
}
