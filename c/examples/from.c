/* from SAMPLE FILE: writes the samples of a FLAC file from this one on, which it has in memory: interleaved, as four
 * little-endian bytes each. */
#include <inttypes.h>
#include <stdio.h>
#include <stdlib.h>

#include "claxon.h"

static int play_from(uint64_t sample, const uint8_t *bytes, size_t length) {
    static int32_t samples[CLAXON_MAX_SAMPLES];
    struct claxon_info info;
    struct claxon_block block = {0};
    char error[128] = "out of memory";
    size_t at;
    if (claxon_open(bytes, length, &info, error, sizeof error) != CLAXON_OK) {
        fprintf(stderr, "%s\n", error);
        return 1;
    }
    uint32_t status = claxon_seek_block(bytes, length, &info, sample, UINT64_MAX, &at, samples, CLAXON_MAX_SAMPLES, &block);
    size_t before = (size_t)(sample - block.time);
    while (status == CLAXON_OK) {
        fwrite(samples + before * block.channels, 4, (block.duration - before) * block.channels, stdout);
        status = claxon_next_block(bytes, length, &at, &info, samples, CLAXON_MAX_SAMPLES, &block, error, sizeof error);
        before = 0;
    }
    if (status != CLAXON_NO_MORE) {
        fprintf(stderr, "%s\n", error);
    }
    return status != CLAXON_NO_MORE;
}

int main(int argc, char **argv) {
    FILE *file = argc == 3 ? fopen(argv[2], "rb") : NULL;
    if (!file || fseek(file, 0, SEEK_END) != 0) {
        fprintf(stderr, "usage: from SAMPLE FILE\n");
        return 2;
    }
    size_t length = (size_t)ftell(file);
    uint8_t *bytes = malloc(length + 1);
    rewind(file);
    int failed = !bytes || fread(bytes, 1, length, file) != length || play_from(strtoull(argv[1], NULL, 10), bytes, length);
    free(bytes);
    fclose(file);
    return fflush(stdout) != 0 || failed;
}
