/* seek.c: going to a sample. */
#include "decoder.h"

/* Gives the engine that seeks its head, and then the bytes of the source. */
static size_t read_source(void *source_of, uint8_t *bytes, size_t length) {
    struct decoder *self = (struct decoder *)source_of;
    struct source *source = &self->source;
    size_t left = self->head_length - self->head_given;
    if (left > 0) {
        length = length < left ? length : left;
        memcpy(bytes, self->head + self->head_given, length);
        self->head_given += length;
        return length;
    }
    if (source->given == source->held && !source_read(self)) {
        return source->status == FLAC__STREAM_DECODER_READ_STATUS_END_OF_STREAM ? 0 : (size_t)-1;
    }
    left = source->held - source->given;
    length = length < left ? length : left;
    memcpy(bytes, source_bytes(self) + source->given, length);
    source->given += length;
    return length;
}

/* Moves the source: positions are those of the engine, for which the first frame follows its head. It is moved as soon as
 * something is read. */
static int64_t seek_source(void *source_of, int64_t offset, int whence) {
    struct decoder *self = (struct decoder *)source_of;
    uint64_t at = self->source.base + self->source.given, length;
    if (whence == SEEK_CUR) {
        return (int64_t)at;
    }
    if (whence == SEEK_END) {
        if (self->callbacks.length(&self->base, &length, self->callbacks.client_data) !=
                FLAC__STREAM_DECODER_LENGTH_STATUS_OK ||
            length < self->first_frame) {
            return -1;
        }
        return (int64_t)(length - self->first_frame + self->head_length);
    }
    if ((uint64_t)offset != at) {
        source_clear(self, (uint64_t)offset);
        self->source.is_moved = 1;
    }
    return offset;
}

/* Goes back to the first frame. */
static int rewind_source(struct decoder *self) {
    if (self->callbacks.seek(&self->base, self->first_frame, self->callbacks.client_data) !=
        FLAC__STREAM_DECODER_SEEK_STATUS_OK) {
        return false;
    }
    engine_stop(self);
    source_clear(self, self->head_length);
    self->head_given = 0;
    return true;
}

/* Makes a head of what the first frame says, where the stream has none: the engine seeks in a stream with a head alone. */
static int add_head(struct decoder *self) {
    if (self->head_length > 0) {
        return true;
    }
    return rewind_source(self) && engine_restart(self) && read_frame(self, 0) &&
           self->state == FLAC__STREAM_DECODER_SEARCH_FOR_FRAME_SYNC && engine_make_head(self);
}

/* Finds the frame with the sample, and hands its block over from the sample on. */
static int seek_native(struct decoder *self, uint64_t sample) {
    struct claxon_stream *finder = &self->finder;
    uint64_t begin;
    uint32_t status;
    int is_done = 0;
    if (!add_head(self) || !rewind_source(self)) {
        return self->state != FLAC__STREAM_DECODER_MEMORY_ALLOCATION_ERROR && fail(self, FLAC__STREAM_DECODER_SEEK_ERROR);
    }
    claxon_stream_free(finder);
    claxon_stream_init(finder, read_source, self);
    claxon_stream_set_seek(finder, seek_source);
    self->current = finder;
    status = claxon_stream_seek(finder, sample);
    begin = finder->position;
    if (status == CLAXON_OK) {
        status = claxon_stream_next_block_planar(finder);
    }
    if (status == CLAXON_OK) {
        self->is_seeking = false;
        self->has_last = false;
        self->state = FLAC__STREAM_DECODER_READ_FRAME;
        is_done = hand_block(self, finder, begin, sample, 1) == HANDED;
        source_pass(self, source_used(self));
    }
    self->current = NULL;
    if (status == CLAXON_OUT_OF_MEMORY) {
        return fail(self, FLAC__STREAM_DECODER_MEMORY_ALLOCATION_ERROR);
    }
    if (status != CLAXON_OK) {
        self->source.is_drained = 1;
        return fail(self, FLAC__STREAM_DECODER_SEEK_ERROR);
    }
    return engine_restart(self) && (is_done || fail(self, FLAC__STREAM_DECODER_SEEK_ERROR));
}

/* Whether the stream may be sought, as far as its state and its callbacks say. */
static int can_seek(struct decoder *self) {
    uint64_t length;
    switch (self->state) {
    case FLAC__STREAM_DECODER_SEARCH_FOR_METADATA:
    case FLAC__STREAM_DECODER_READ_METADATA:
    case FLAC__STREAM_DECODER_SEARCH_FOR_FRAME_SYNC:
    case FLAC__STREAM_DECODER_READ_FRAME:
    case FLAC__STREAM_DECODER_END_OF_STREAM: break;
    default: return false;
    }
    return self->callbacks.seek &&
           self->callbacks.length(&self->base, &length, self->callbacks.client_data) == FLAC__STREAM_DECODER_LENGTH_STATUS_OK;
}

/* Whether the head says that there is such a sample, or doesn't say how many there are. */
static int has_sample(const struct decoder *self, uint64_t sample) {
    return !self->has_streaminfo || self->streaminfo.total_samples == 0 || sample < self->streaminfo.total_samples;
}

FLAC__bool FLAC__stream_decoder_seek_absolute(FLAC__StreamDecoder *decoder, FLAC__uint64 sample) {
    struct decoder *self = decoder_of(decoder);
    int is_done;
    if (!can_seek(self) || !has_sample(self, sample)) {
        return false;
    }
    self->hashes = false;
    self->is_seeking = true;
    is_done = FLAC__stream_decoder_process_until_end_of_metadata(decoder) && has_sample(self, sample);
    if (is_done) {
        is_done = self->is_ogg ? ogg_seek(self, sample) : seek_native(self, sample);
    }
    self->is_seeking = false;
    return is_done;
}
