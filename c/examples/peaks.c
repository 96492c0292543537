/* peaks FILE: prints the greatest magnitude of the samples of each channel of a FLAC file, which it has in memory. */
#include <inttypes.h>
#include <stdio.h>
#include <stdlib.h>

#include "claxon.h"

static void raise_peaks(const int32_t *samples, const struct claxon_block *block, int64_t *peaks) {
    for (uint32_t ch = 0; ch < block->channels; ch++) {
        const int32_t *channel = samples + (size_t)ch * block->duration;
        for (uint32_t i = 0; i < block->duration; i++) {
            int64_t magnitude = channel[i] < 0 ? -(int64_t)channel[i] : channel[i];
            peaks[ch] = magnitude > peaks[ch] ? magnitude : peaks[ch];
        }
    }
}

static int print_peaks(const uint8_t *bytes, size_t length) {
    static int32_t samples[CLAXON_MAX_SAMPLES];
    int64_t peaks[8] = {0};
    struct claxon_info info = {0};
    struct claxon_block block;
    char error[128];
    uint32_t status = claxon_open(bytes, length, &info, error, sizeof error);
    size_t at = info.first_frame;
    while (status == CLAXON_OK) {
        status = claxon_next_block_planar(bytes, length, &at, &info, samples, CLAXON_MAX_SAMPLES, &block, error, sizeof error);
        if (status == CLAXON_OK) {
            raise_peaks(samples, &block, peaks);
        }
    }
    if (status != CLAXON_NO_MORE) {
        fprintf(stderr, "%s\n", error);
        return 1;
    }
    for (uint32_t ch = 0; ch < info.channels; ch++) {
        printf("%" PRId64 "\n", peaks[ch]);
    }
    return 0;
}

int main(int argc, char **argv) {
    FILE *file = argc == 2 ? fopen(argv[1], "rb") : NULL;
    if (!file || fseek(file, 0, SEEK_END) != 0) {
        fprintf(stderr, "usage: peaks FILE\n");
        return 2;
    }
    size_t length = (size_t)ftell(file);
    uint8_t *bytes = malloc(length + 1);
    rewind(file);
    int failed = !bytes || fread(bytes, 1, length, file) != length || print_peaks(bytes, length);
    free(bytes);
    fclose(file);
    return failed;
}
