/* play_from SAMPLE FILE: writes the samples of a FLAC file from this one on, which it seeks: interleaved, as four
 * little-endian bytes each. */
#include "claxon_stream.h"

static int play_from(FILE *file, uint64_t sample) {
    struct claxon_stream stream;
    claxon_stream_init(&stream, claxon_stream_fread, file);
    claxon_stream_set_seek(&stream, claxon_stream_fseek);
    if (claxon_stream_seek(&stream, sample) == CLAXON_OK) {
        while (claxon_stream_next_block(&stream) == CLAXON_OK) {
            size_t before = stream.block.time < sample ? (size_t)(sample - stream.block.time) : 0;
            const int32_t *samples = stream.samples + before * stream.block.channels;
            fwrite(samples, 4, (stream.block.duration - before) * stream.block.channels, stdout);
            sample = 0;
        }
    }
    if (stream.error[0]) {
        fprintf(stderr, "%s\n", stream.error);
    }
    claxon_stream_free(&stream);
    return stream.error[0] != 0;
}

int main(int argc, char **argv) {
    FILE *file = argc == 3 ? fopen(argv[2], "rb") : NULL;
    if (!file) {
        fprintf(stderr, "usage: play_from SAMPLE FILE\n");
        return 2;
    }
    int failed = play_from(file, strtoull(argv[1], NULL, 10));
    fclose(file);
    return fflush(stdout) != 0 || failed;
}
