/* user FILE NAME: prints `NAME: ok, FRAMES frames, SAMPLES samples` of a FLAC file whose samples have the MD5 sum of its head,
 * as `claxon verify` does. It is C89, later C and C++: tests/standards compiles it as each of them. */
#include "claxon_stream.h"

struct counts {
    unsigned frames;
    uint64_t samples;
};

/* Whether the samples have the sum. */
static int read_all(struct claxon_stream *stream, struct counts *counts) {
    struct claxon_md5 md5;
    uint8_t sum[16];
    claxon_md5_start(&md5);
    while (claxon_stream_next_block(stream) == CLAXON_OK) {
        const struct claxon_block *block = &stream->block;
        claxon_md5_samples(&md5, stream->samples, (size_t)block->channels * block->duration, stream->info.bits_per_sample);
        counts->frames++;
        counts->samples += block->duration;
    }
    claxon_md5_finish(&md5, sum);
    return !stream->error[0] && memcmp(sum, stream->info.md5, 16) == 0;
}

/* Whether a seek finds the last sample, in a block that says what the head says. */
static int has_sample(struct claxon_stream *stream, uint64_t sample) {
    const struct claxon_block *block = &stream->block;
    claxon_stream_set_seek(stream, claxon_stream_fseek);
    return claxon_stream_seek(stream, sample) == CLAXON_OK && claxon_stream_next_block(stream) == CLAXON_OK &&
           block->time <= sample && sample - block->time < block->duration && block->sample_rate == stream->info.sample_rate &&
           block->bits_per_sample == stream->info.bits_per_sample;
}

int main(int argc, char **argv) {
    struct claxon_stream stream;
    struct counts counts = {0, 0};
    int is_right = 0;
    FILE *file = argc == 3 ? fopen(argv[1], "rb") : NULL;
    if (!file) {
        fprintf(stderr, "usage: user FILE NAME\n");
        return 2;
    }
    claxon_stream_init(&stream, claxon_stream_fread, file);
    if (read_all(&stream, &counts)) {
        is_right = has_sample(&stream, counts.samples - 1);
    }
    printf("%s: %s, %u frames, %lu samples\n", argv[2], is_right ? "ok" : stream.error, counts.frames,
           (unsigned long)counts.samples);
    claxon_stream_free(&stream);
    fclose(file);
    return !is_right;
}
