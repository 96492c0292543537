/* Decodes a FLAC file by dr_flac, which computes no MD5 sum, and prints the sum of all samples modulo 2^64. */
#define DR_FLAC_IMPLEMENTATION
#include "dr_flac.h"

#include <inttypes.h>
#include <stdio.h>
#include <stdlib.h>

#define MOST_FRAMES 4096

int main(int argc, char **argv) {
    if (argc != 2) {
        fprintf(stderr, "usage: dr_flac_peer FILE\n");
        return 2;
    }
    drflac *decoder = drflac_open_file(argv[1], NULL);
    if (decoder == NULL) {
        fprintf(stderr, "dr_flac_peer: %s can't be decoded\n", argv[1]);
        return 1;
    }
    drflac_int32 *samples = malloc(sizeof(drflac_int32) * MOST_FRAMES * decoder->channels);
    if (samples == NULL) {
        fprintf(stderr, "dr_flac_peer: out of memory\n");
        return 1;
    }
    /* dr_flac scales samples up to 32 bits. */
    unsigned shift = 32 - decoder->bitsPerSample;
    uint64_t sum = 0;
    drflac_uint64 frames;
    while ((frames = drflac_read_pcm_frames_s32(decoder, MOST_FRAMES, samples)) > 0) {
        for (drflac_uint64 index = 0; index < frames * decoder->channels; index++) {
            sum += (uint64_t)(int64_t)(samples[index] >> shift);
        }
    }
    free(samples);
    drflac_close(decoder);
    printf("%" PRIu64 "\n", sum);
    return 0;
}
