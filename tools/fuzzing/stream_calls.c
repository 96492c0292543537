/* The calls of claxon_stream.h in a shared library, which tools/fuzz builds and loads. */
#include "claxon_stream.h"

struct claxon_stream *stream_begin(void) {
    struct claxon_stream *stream = (struct claxon_stream *)malloc(sizeof *stream);
    if (stream) {
        claxon_stream_init_push(stream);
    }
    return stream;
}

/* Bytes in memory, of which so many are given a read. */
struct source {
    const uint8_t *bytes;
    size_t length, at, piece;
};

static size_t read_source(void *from, uint8_t *bytes, size_t length) {
    struct source *source = (struct source *)from;
    size_t left = source->at < source->length ? source->length - source->at : 0;
    size_t count = length < source->piece ? length : source->piece;
    count = count < left ? count : left;
    if (count > 0) {
        memcpy(bytes, source->bytes + source->at, count);
    }
    source->at += count;
    return count;
}

static int64_t seek_source(void *from, int64_t offset, int whence) {
    struct source *source = (struct source *)from;
    size_t start = whence == SEEK_SET ? 0 : whence == SEEK_CUR ? source->at : source->length;
    source->at = start + (size_t)offset;
    return (int64_t)source->at;
}

struct claxon_stream *stream_over(const uint8_t *bytes, size_t length, size_t piece) {
    struct claxon_stream *stream = (struct claxon_stream *)malloc(sizeof *stream + sizeof(struct source));
    if (stream) {
        struct source *source = (struct source *)(stream + 1);
        source->bytes = bytes;
        source->length = length;
        source->at = 0;
        source->piece = piece;
        claxon_stream_init(stream, read_source, source);
        claxon_stream_set_seek(stream, seek_source);
    }
    return stream;
}

uint32_t stream_seek(struct claxon_stream *stream, uint64_t sample) {
    return claxon_stream_seek(stream, sample);
}

void stream_end(struct claxon_stream *stream) {
    claxon_stream_free(stream);
    free(stream);
}

uint32_t stream_feed(struct claxon_stream *stream, const uint8_t *bytes, size_t length) {
    return claxon_stream_feed(stream, bytes, length);
}

void stream_feed_end(struct claxon_stream *stream) {
    claxon_stream_feed_end(stream);
}

uint32_t stream_open(struct claxon_stream *stream) {
    return claxon_stream_open(stream);
}

uint32_t stream_next_block(struct claxon_stream *stream) {
    return claxon_stream_next_block_planar(stream);
}

uint32_t stream_resync(struct claxon_stream *stream) {
    return claxon_stream_resync(stream);
}

const struct claxon_block *stream_block(const struct claxon_stream *stream) {
    return &stream->block;
}

const int32_t *stream_samples(const struct claxon_stream *stream) {
    return stream->samples;
}

uint64_t stream_position(const struct claxon_stream *stream) {
    return stream->position;
}

const char *stream_error(const struct claxon_stream *stream) {
    return stream->error;
}
