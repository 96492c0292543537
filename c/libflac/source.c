/* source.c: the bytes of the stream, as they are read and as far as they are still needed. */
#include "decoder.h"

/* How many bytes are read at once: of a file, and of what may be a pipe, where the callback may wait for all of them. */
#define SOURCE_STEP 65536
#define SOURCE_LIVE_STEP 8192

const uint8_t *source_bytes(const struct decoder *self) {
    return self->source.window + self->source.start;
}

size_t source_used(const struct decoder *self) {
    const struct source *source = &self->source;
    return self->current && self->current->position > source->base ? (size_t)(self->current->position - source->base) : 0;
}

size_t source_unread(const struct decoder *self) {
    return self->source.is_drained ? 0 : self->source.held - source_used(self);
}

void source_clear(struct decoder *self, uint64_t base) {
    struct source *source = &self->source;
    source->start = 0;
    source->held = 0;
    source->given = 0;
    source->base = base;
    source->is_moved = 0;
    source->is_short = 0;
    source->is_drained = 0;
    source->status = FLAC__STREAM_DECODER_READ_STATUS_CONTINUE;
}

void source_free(struct decoder *self) {
    free(self->source.window);
    memset(&self->source, 0, sizeof self->source);
}

void source_pass(struct decoder *self, size_t count) {
    struct source *source = &self->source;
    source->start += count;
    source->held -= count;
    source->given = source->given > count ? source->given - count : 0;
    source->base += count;
}

/* Makes room for more bytes after those that are held: moves these to the front, or doubles the window. */
static int make_room(struct decoder *self) {
    struct source *source = &self->source;
    source_pass(self, source_used(self));
    if (source->start + source->held + SOURCE_STEP <= source->size) {
        return true;
    }
    if (source->size == 0 || source->held > source->size / 2) {
        size_t size = source->size == 0 ? 2 * SOURCE_STEP : 2 * source->size;
        uint8_t *window = (uint8_t *)malloc(size);
        if (!window) {
            return fail(self, FLAC__STREAM_DECODER_MEMORY_ALLOCATION_ERROR);
        }
        if (source->held > 0) {
            memcpy(window, source_bytes(self), source->held);
        }
        free(source->window);
        source->window = window;
        source->size = size;
    } else if (source->held > 0) {
        memmove(source->window, source_bytes(self), source->held);
    }
    source->start = 0;
    return true;
}

FLAC__StreamDecoderReadStatus read_by_callback(struct decoder *self, uint8_t *bytes, size_t *length) {
    const struct callbacks *callbacks = &self->callbacks;
    size_t most = *length;
    FLAC__StreamDecoderReadStatus status;
    do {
        *length = most;
        if (callbacks->eof && callbacks->eof(&self->base, callbacks->client_data)) {
            *length = 0;
            return FLAC__STREAM_DECODER_READ_STATUS_END_OF_STREAM;
        }
        status = callbacks->read(&self->base, bytes, length, callbacks->client_data);
    } while (status == FLAC__STREAM_DECODER_READ_STATUS_CONTINUE && *length == 0);
    return *length > most ? FLAC__STREAM_DECODER_READ_STATUS_ABORT : status;
}

/* Moves the source to where the engine is. */
static int move(struct decoder *self) {
    const struct callbacks *callbacks = &self->callbacks;
    uint64_t position = self->first_frame + (self->source.base - self->head_length);
    self->source.is_moved = 0;
    return callbacks->seek(&self->base, position, callbacks->client_data) == FLAC__STREAM_DECODER_SEEK_STATUS_OK;
}

int source_read(struct decoder *self) {
    struct source *source = &self->source;
    size_t length, most = self->reads_ahead ? SOURCE_STEP : SOURCE_LIVE_STEP;
    if (source->status != FLAC__STREAM_DECODER_READ_STATUS_CONTINUE || !make_room(self)) {
        return false;
    }
    if (source->is_moved && !move(self)) {
        source->status = FLAC__STREAM_DECODER_READ_STATUS_ABORT;
        return false;
    }
    length = most;
    source->status = self->read(self, source->window + source->start + source->held, &length);
    source->is_short = length < most;
    if (source->status != FLAC__STREAM_DECODER_READ_STATUS_CONTINUE) {
        return false;
    }
    source->held += length;
    return true;
}

int stop(struct decoder *self) {
    if (self->state == FLAC__STREAM_DECODER_MEMORY_ALLOCATION_ERROR || self->state == FLAC__STREAM_DECODER_OGG_ERROR) {
        return false;
    }
    self->source.is_drained = 1;
    return fail(self, self->source.status == FLAC__STREAM_DECODER_READ_STATUS_END_OF_STREAM ? FLAC__STREAM_DECODER_END_OF_STREAM
                                                                                            : FLAC__STREAM_DECODER_ABORTED);
}

int source_hold(struct decoder *self, size_t count) {
    while (self->source.held < count) {
        if (!source_read(self)) {
            return stop(self);
        }
    }
    return true;
}
