/* verify FILE: whether the samples of a FLAC file have the MD5 sum that its head gives. */
#include "claxon_stream.h"

/* The text of what is wrong, or NULL. */
static const char *fault_of(struct claxon_stream *stream) {
    static const uint8_t unknown[16];
    struct claxon_md5 md5;
    uint8_t sum[16];
    claxon_md5_start(&md5);
    while (claxon_stream_next_block(stream) == CLAXON_OK) {
        size_t count = (size_t)stream->block.channels * stream->block.duration;
        claxon_md5_samples(&md5, stream->samples, count, stream->info.bits_per_sample);
    }
    claxon_md5_finish(&md5, sum);
    if (stream->error[0]) {
        return stream->error;
    }
    if (memcmp(stream->info.md5, unknown, 16) == 0) {
        return "the head has no MD5 sum";
    }
    return memcmp(stream->info.md5, sum, 16) == 0 ? NULL : "the MD5 sum is that of other samples";
}

int main(int argc, char **argv) {
    FILE *file = argc == 2 ? fopen(argv[1], "rb") : NULL;
    if (!file) {
        fprintf(stderr, "usage: verify FILE\n");
        return 2;
    }
    struct claxon_stream stream;
    claxon_stream_init(&stream, claxon_stream_fread, file);
    const char *fault = fault_of(&stream);
    puts(fault ? fault : "ok");
    claxon_stream_free(&stream);
    fclose(file);
    return fault != NULL;
}
