/* engine.c: the frames, as claxon_stream.h gives them of the bytes that it is handed. */
#include "decoder.h"

/* The greatest length of a frame for whose bytes is waited before it is decoded. */
#define ENGINE_MAX_AHEAD (1024 * 1024)

/* How many bytes are awaited at most where nothing shows that the frame is whole. */
#define ENGINE_MAX_WAIT 65536

/* Makes the streaminfo block one that the engine takes: it is told of channels, bit depth and number of samples, and of sizes
 * and a sample rate where it knows such. Returns whether it takes that. */
static int fit_head(struct decoder *self) {
    static const uint8_t usual[13] = {0, 16, 0xff, 0xff, 0, 0, 0, 0, 0, 0, 0x0a, 0xc4, 0x40};
    struct claxon_info info;
    uint8_t *content = self->head + 8;
    if (claxon_streaminfo(content, ENGINE_HEAD - 8, &info, self->engine.error, 0) == CLAXON_OK) {
        return true;
    }
    memcpy(content, usual, 12);
    content[12] = (uint8_t)(usual[12] | (content[12] & 15));
    return claxon_streaminfo(content, ENGINE_HEAD - 8, &info, self->engine.error, 0) == CLAXON_OK;
}

/* Writes a number in so many bytes. */
static uint8_t *put_number(uint8_t *to, uint64_t number, size_t count) {
    size_t i;
    for (i = 0; i < count; i++) {
        to[i] = (uint8_t)(number >> 8 * (count - 1 - i));
    }
    return to + count;
}

/* Makes a head of what the last frame says. Returns whether the engine takes that. */
int engine_make_head(struct decoder *self) {
    const FLAC__FrameHeader *frame = &self->last;
    uint64_t format = (uint64_t)frame->sample_rate << 44 | (uint64_t)(frame->channels - 1) << 41 |
                      (uint64_t)(frame->bits_per_sample - 1) << 36;
    uint8_t *to;
    if (frame->channels == 0 || frame->bits_per_sample == 0) {
        return false;
    }
    memset(self->head, 0, ENGINE_HEAD);
    memcpy(self->head, "fLaC\x80\0\0\x22", 8);
    to = put_number(self->head + 8, self->fixed_block_size ? self->fixed_block_size : 16, 2);
    to = put_number(to, self->fixed_block_size ? self->fixed_block_size : 65535, 2);
    put_number(to + 6, format, 8);
    self->head_length = fit_head(self) ? ENGINE_HEAD : 0;
    return self->head_length > 0;
}

/* Notes where the first frame begins, for seeks: as the callback tells it, or counted from the first byte that was read. A
 * source that tells it and seeks is taken for a file. */
static void locate(struct decoder *self) {
    uint64_t position;
    FLAC__bool is_told = FLAC__stream_decoder_get_decode_position(&self->base, &position);
    self->first_frame = is_told ? position : self->source.base;
    self->reads_ahead = is_told && self->callbacks.seek;
}

void engine_stop(struct decoder *self) {
    if (self->current == &self->engine) {
        claxon_stream_free(&self->engine);
    }
    self->current = NULL;
}

/* Begins to decode frames where the source is. */
int engine_restart(struct decoder *self) {
    uint32_t status = CLAXON_OK;
    engine_stop(self);
    claxon_stream_init_push(&self->engine);
    self->current = &self->engine;
    self->source.base = self->head_length;
    self->source.given = 0;
    if (self->head_length > 0) {
        status = claxon_stream_feed(&self->engine, self->head, self->head_length);
        if (status == CLAXON_OK) {
            status = claxon_stream_open(&self->engine);
        }
    } else {
        claxon_stream_resync(&self->engine); /* which takes any frame for the first one */
    }
    self->is_lost = self->head_length == 0;
    self->is_told = false;
    return status == CLAXON_OK ? true : fail(self, FLAC__STREAM_DECODER_MEMORY_ALLOCATION_ERROR);
}

int engine_start(struct decoder *self) {
    if (self->has_streaminfo && !fit_head(self)) {
        self->head_length = 0;
    }
    self->longest_frame = self->has_streaminfo ? self->streaminfo.max_framesize : 0;
    locate(self);
    self->state = FLAC__STREAM_DECODER_SEARCH_FOR_FRAME_SYNC;
    return engine_restart(self);
}

/* Hands what was read to the engine. */
static int feed(struct decoder *self) {
    struct source *source = &self->source;
    uint32_t status;
    status = claxon_stream_feed(&self->engine, source_bytes(self) + source->given, source->held - source->given);
    if (status != CLAXON_OK) {
        return fail(self, FLAC__STREAM_DECODER_MEMORY_ALLOCATION_ERROR);
    }
    source->given = source->held;
    return true;
}

/* Hands the next bytes to the engine, or tells it that there are none. */
static int feed_more(struct decoder *self) {
    if (self->source.given == self->source.held && !source_read(self)) {
        if (self->source.status == FLAC__STREAM_DECODER_READ_STATUS_END_OF_STREAM) {
            claxon_stream_feed_end(&self->engine);
            return true;
        }
        return stop(self);
    }
    return feed(self);
}

/* Reads ahead where the source is a file: so that a frame is there as a whole when it is decoded, and isn't tried in vain. */
static int read_ahead(struct decoder *self) {
    size_t ahead = self->longest_frame < ENGINE_MAX_AHEAD ? self->longest_frame : ENGINE_MAX_AHEAD;
    while (source_unread(self) < ahead && !self->source.is_short) {
        if (!source_read(self)) {
            return self->state != FLAC__STREAM_DECODER_MEMORY_ALLOCATION_ERROR;
        }
    }
    return self->source.given == self->source.held || feed(self);
}

/* What is known of the bytes of a frame that were awaited: how many were looked at, and their CRC. */
struct awaited {
    size_t seen;
    uint16_t crc;
};

/* Whether a frame may be there as a whole: another one seems to begin after it, or the CRC of all bytes is right. */
static int may_have_frame(const struct decoder *self, struct awaited *awaited) {
    size_t length = source_unread(self), seen = awaited->seen;
    const uint8_t *bytes, *at, *end;
    if (length < 2 || length >= ENGINE_MAX_WAIT) {
        return length >= ENGINE_MAX_WAIT;
    }
    bytes = source_bytes(self) + (self->source.held - length);
    end = bytes + length;
    at = bytes + (seen > 0 ? seen : 1);
    awaited->seen = length;
    awaited->crc = claxon_crc16(awaited->crc, bytes + seen, length - seen);
    while (at < end && (at = (const uint8_t *)memchr(at, 0xff, (size_t)(end - at))) != NULL) {
        if (at + 1 == end || at[1] >> 1 == 0x7c) {
            return 1;
        }
        at++;
    }
    return awaited->crc == 0;
}

/* Reads of a source that may be a pipe until a frame may be there, and no more, for which the callback might wait. */
static int read_frame_bytes(struct decoder *self) {
    struct awaited awaited = {0, 0};
    while (!may_have_frame(self, &awaited)) {
        if (!source_read(self)) {
            return self->state != FLAC__STREAM_DECODER_MEMORY_ALLOCATION_ERROR;
        }
    }
    return self->source.given == self->source.held || feed(self);
}

/* Decodes the next frame. NEED_MORE: no more can be read, and the state says why. */
uint32_t engine_next(struct decoder *self, uint64_t *begin) {
    uint32_t status;
    if (!(self->reads_ahead ? read_ahead(self) : read_frame_bytes(self))) {
        return CLAXON_NEED_MORE;
    }
    do {
        *begin = self->engine.position;
        status = claxon_stream_next_block_planar(&self->engine);
    } while (status == CLAXON_NEED_MORE && feed_more(self));
    if (status == CLAXON_OK && self->engine.position - *begin > self->longest_frame) {
        self->longest_frame = (size_t)(self->engine.position - *begin);
    }
    return status;
}

/* Goes to the next frame. */
uint32_t engine_resync(struct decoder *self) {
    uint32_t status;
    do {
        status = claxon_stream_resync(&self->engine);
    } while (status == CLAXON_NEED_MORE && feed_more(self));
    return status;
}

/* What an error callback is told of a fault, by its text. */
struct kind {
    const char *text;
    FLAC__StreamDecoderErrorStatus status;
};

FLAC__StreamDecoderErrorStatus engine_error(const struct claxon_stream *engine) {
    static const struct kind kinds[] = {
        {"frame CRC mismatch", FLAC__STREAM_DECODER_ERROR_STATUS_FRAME_CRC_MISMATCH},
        {"frame header CRC mismatch", FLAC__STREAM_DECODER_ERROR_STATUS_BAD_HEADER},
        {"invalid frame header, frame number too large", FLAC__STREAM_DECODER_ERROR_STATUS_BAD_HEADER},
        {"invalid frame header, encountered reserved value", FLAC__STREAM_DECODER_ERROR_STATUS_UNPARSEABLE_STREAM},
        {"invalid frame header", FLAC__STREAM_DECODER_ERROR_STATUS_BAD_HEADER},
        {"invalid variable-length integer", FLAC__STREAM_DECODER_ERROR_STATUS_BAD_HEADER},
        {"invalid block size, exceeds 65535", FLAC__STREAM_DECODER_ERROR_STATUS_BAD_HEADER},
        {"header without bits per sample info", FLAC__STREAM_DECODER_ERROR_STATUS_UNPARSEABLE_STREAM},
        {"side channels of 33 bits are not supported", FLAC__STREAM_DECODER_ERROR_STATUS_UNPARSEABLE_STREAM},
        {"invalid subframe header, encountered reserved value", FLAC__STREAM_DECODER_ERROR_STATUS_UNPARSEABLE_STREAM},
        {"invalid residual, encountered reserved value", FLAC__STREAM_DECODER_ERROR_STATUS_UNPARSEABLE_STREAM},
    };
    size_t i;
    for (i = 0; i < sizeof kinds / sizeof kinds[0]; i++) {
        if (strcmp(engine->error, kinds[i].text) == 0) {
            return kinds[i].status;
        }
    }
    return FLAC__STREAM_DECODER_ERROR_STATUS_LOST_SYNC;
}
