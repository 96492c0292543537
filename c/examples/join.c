/* join < STREAM: joins a live FLAC stream in the middle, without its head: writes samples as play does, and prints the format
 * that the blocks have, where that is new. */
#include <inttypes.h>

#include "claxon_stream.h"

static void print_format(const struct claxon_block *block) {
    static struct claxon_block last;
    if (block->sample_rate != last.sample_rate || block->channels != last.channels ||
        block->bits_per_sample != last.bits_per_sample) {
        fprintf(stderr, "%" PRIu32 " Hz, %" PRIu32 " channels, %" PRIu32 " bits per sample\n", block->sample_rate,
                block->channels, block->bits_per_sample);
    }
    last = *block;
}

static uint32_t play_on(struct claxon_stream *stream) {
    uint32_t status = claxon_stream_resync(stream);
    while (status == CLAXON_OK) {
        status = claxon_stream_next_block(stream);
        if (status == CLAXON_OK) {
            print_format(&stream->block);
            fwrite(stream->samples, 4, (size_t)stream->block.channels * stream->block.duration, stdout);
            fflush(stdout);
        } else if (status != CLAXON_NO_MORE && status != CLAXON_READ_FAILED) {
            status = claxon_stream_resync(stream);
        }
    }
    return status;
}

int main(void) {
    struct claxon_stream stream;
    int fd = STDIN_FILENO;
    uint32_t status;
    claxon_stream_init(&stream, claxon_stream_read_fd, &fd);
    status = play_on(&stream);
    if (stream.error[0]) {
        fprintf(stderr, "%s\n", stream.error);
    }
    claxon_stream_free(&stream);
    return status != CLAXON_NO_MORE;
}
