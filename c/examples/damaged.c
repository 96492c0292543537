/* damaged FILE: writes samples as play does, and goes on after damage: it prints what is wrong, and what is missing. Its status
 * is 1 where the file couldn't be read. */
#include <inttypes.h>

#include "claxon_stream.h"

static uint32_t play_on(struct claxon_stream *stream) {
    uint64_t next = 0;
    uint32_t status = CLAXON_OK;
    while (status == CLAXON_OK) {
        status = claxon_stream_next_block(stream);
        if (status == CLAXON_OK) {
            if (stream->block.time > next) {
                fprintf(stderr, "samples %" PRIu64 " to %" PRIu64 " are missing\n", next, stream->block.time - 1);
            }
            next = stream->block.time + stream->block.duration;
            fwrite(stream->samples, 4, (size_t)stream->block.channels * stream->block.duration, stdout);
        } else if (status != CLAXON_NO_MORE) {
            fprintf(stderr, "at byte %" PRIu64 ": %s\n", stream->position, stream->error);
            status = claxon_stream_resync(stream);
        }
    }
    return status;
}

int main(int argc, char **argv) {
    struct claxon_stream stream;
    uint32_t status;
    FILE *file = argc == 2 ? fopen(argv[1], "rb") : NULL;
    if (!file) {
        fprintf(stderr, "usage: damaged FILE\n");
        return 2;
    }
    claxon_stream_init(&stream, claxon_stream_fread, file);
    status = play_on(&stream);
    claxon_stream_free(&stream);
    fclose(file);
    return fflush(stdout) != 0 || status == CLAXON_READ_FAILED;
}
