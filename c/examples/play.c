/* play FILE: writes the samples of a FLAC file to standard output, interleaved, as four little-endian bytes each. */
#include "claxon_stream.h"

static int play(FILE *file) {
    struct claxon_stream stream;
    claxon_stream_init(&stream, claxon_stream_fread, file);
    while (claxon_stream_next_block(&stream) == CLAXON_OK) {
        fwrite(stream.samples, 4, (size_t)stream.block.channels * stream.block.duration, stdout);
    }
    if (stream.error[0]) {
        fprintf(stderr, "%s\n", stream.error);
    }
    claxon_stream_free(&stream);
    return stream.error[0] != 0;
}

int main(int argc, char **argv) {
    FILE *file = argc == 2 ? fopen(argv[1], "rb") : NULL;
    if (!file) {
        fprintf(stderr, "usage: play FILE\n");
        return 2;
    }
    int failed = play(file);
    fclose(file);
    return fflush(stdout) != 0 || failed;
}
