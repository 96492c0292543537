/* process.c: the calls that decode. */
#include "decoder.h"

static int is_in_metadata(const struct decoder *self) {
    return self->state == FLAC__STREAM_DECODER_SEARCH_FOR_METADATA || self->state == FLAC__STREAM_DECODER_READ_METADATA;
}

static int is_in_frames(const struct decoder *self) {
    return self->state == FLAC__STREAM_DECODER_SEARCH_FOR_FRAME_SYNC || self->state == FLAC__STREAM_DECODER_READ_FRAME;
}

static int is_at_end(const struct decoder *self) {
    return self->state == FLAC__STREAM_DECODER_END_OF_STREAM || self->state == FLAC__STREAM_DECODER_ABORTED;
}

FLAC__bool FLAC__stream_decoder_process_single(FLAC__StreamDecoder *decoder) {
    struct decoder *self = decoder_of(decoder);
    if (self->state == FLAC__STREAM_DECODER_SEARCH_FOR_METADATA && !find_metadata(self)) {
        return false;
    }
    if (self->state == FLAC__STREAM_DECODER_READ_METADATA) {
        return read_metadata(self);
    }
    return is_in_frames(self) ? read_frame(self, 1) : is_at_end(self);
}

FLAC__bool FLAC__stream_decoder_process_until_end_of_metadata(FLAC__StreamDecoder *decoder) {
    struct decoder *self = decoder_of(decoder);
    while (is_in_metadata(self)) {
        if (self->state == FLAC__STREAM_DECODER_SEARCH_FOR_METADATA ? !find_metadata(self) : !read_metadata(self)) {
            return false;
        }
    }
    return is_in_frames(self) || is_at_end(self);
}

FLAC__bool FLAC__stream_decoder_process_until_end_of_stream(FLAC__StreamDecoder *decoder) {
    struct decoder *self = decoder_of(decoder);
    while (!is_at_end(self)) {
        if (!FLAC__stream_decoder_process_single(decoder)) {
            return false;
        }
    }
    return true;
}

FLAC__bool FLAC__stream_decoder_skip_single_frame(FLAC__StreamDecoder *decoder) {
    struct decoder *self = decoder_of(decoder);
    return is_in_frames(self) ? read_frame(self, 0) : is_at_end(self);
}
