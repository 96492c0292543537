/* listen < STREAM: writes the samples of a live FLAC stream to standard output, interleaved, as four little-endian bytes
 * each: a block as soon as the last byte of its frame was read. */
#include "claxon_stream.h"

/* Hands in what was read, and writes the blocks that are whole. CLAXON_NEED_MORE: so far all is well. */
static uint32_t take(struct claxon_stream *stream, const uint8_t *bytes, size_t length) {
    uint32_t status = claxon_stream_feed(stream, bytes, length);
    while (status == CLAXON_OK) {
        status = claxon_stream_next_block(stream);
        if (status == CLAXON_OK) {
            fwrite(stream->samples, 4, (size_t)stream->block.channels * stream->block.duration, stdout);
        }
    }
    fflush(stdout);
    return status;
}

int main(void) {
    struct claxon_stream stream;
    uint8_t bytes[4096];
    uint32_t status = CLAXON_READ_FAILED;
    ssize_t count;
    claxon_stream_init_push(&stream);
    do { /* an event loop would do this where there is something to read */
        count = read(STDIN_FILENO, bytes, sizeof bytes);
        if (count < 0) {
            perror("listen");
            break;
        }
        if (count == 0) {
            claxon_stream_feed_end(&stream);
        }
        status = take(&stream, bytes, (size_t)count);
    } while (status == CLAXON_NEED_MORE);
    if (stream.error[0]) {
        fprintf(stderr, "%s\n", stream.error);
    }
    claxon_stream_free(&stream);
    return status != CLAXON_NO_MORE;
}
