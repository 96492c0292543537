/* state.c: decoders, their states, and what they tell of the stream. */
#include "decoder.h"

struct decoder *decoder_of(const FLAC__StreamDecoder *decoder) {
    return (struct decoder *)decoder;
}

int is_initialized(const struct decoder *self) {
    return self->state != FLAC__STREAM_DECODER_UNINITIALIZED;
}

int fail(struct decoder *self, FLAC__StreamDecoderState state) {
    self->state = state;
    return false;
}

void send_error(struct decoder *self, FLAC__StreamDecoderErrorStatus status) {
    if (!self->is_seeking) {
        self->callbacks.error(&self->base, status, self->callbacks.client_data);
    }
}

FLAC__StreamDecoder *FLAC__stream_decoder_new(void) {
    struct decoder *self = (struct decoder *)calloc(1, sizeof *self);
    if (!self) {
        return NULL;
    }
    self->state = FLAC__STREAM_DECODER_UNINITIALIZED;
    default_settings(&self->settings);
    return &self->base;
}

void FLAC__stream_decoder_delete(FLAC__StreamDecoder *decoder) {
    struct decoder *self = decoder_of(decoder);
    if (!self) {
        return;
    }
    FLAC__stream_decoder_finish(decoder);
    free(self->settings.ids);
    free(self);
}

FLAC__StreamDecoderState FLAC__stream_decoder_get_state(const FLAC__StreamDecoder *decoder) {
    return decoder_of(decoder)->state;
}

const char *FLAC__stream_decoder_get_resolved_state_string(const FLAC__StreamDecoder *decoder) {
    return FLAC__StreamDecoderStateString[decoder_of(decoder)->state];
}

FLAC__bool FLAC__stream_decoder_get_md5_checking(const FLAC__StreamDecoder *decoder) {
    return decoder_of(decoder)->settings.checks_md5;
}

FLAC__uint64 FLAC__stream_decoder_get_total_samples(const FLAC__StreamDecoder *decoder) {
    const struct decoder *self = decoder_of(decoder);
    return self->has_streaminfo ? self->streaminfo.total_samples : 0;
}

uint32_t FLAC__stream_decoder_get_channels(const FLAC__StreamDecoder *decoder) {
    return decoder_of(decoder)->last.channels;
}

FLAC__ChannelAssignment FLAC__stream_decoder_get_channel_assignment(const FLAC__StreamDecoder *decoder) {
    return decoder_of(decoder)->last.channel_assignment;
}

uint32_t FLAC__stream_decoder_get_bits_per_sample(const FLAC__StreamDecoder *decoder) {
    return decoder_of(decoder)->last.bits_per_sample;
}

uint32_t FLAC__stream_decoder_get_sample_rate(const FLAC__StreamDecoder *decoder) {
    return decoder_of(decoder)->last.sample_rate;
}

uint32_t FLAC__stream_decoder_get_blocksize(const FLAC__StreamDecoder *decoder) {
    return decoder_of(decoder)->last.blocksize;
}

const void *FLAC__stream_decoder_get_client_data(FLAC__StreamDecoder *decoder) {
    return decoder_of(decoder)->callbacks.client_data;
}

FLAC__bool FLAC__stream_decoder_get_decode_position(const FLAC__StreamDecoder *decoder, FLAC__uint64 *position) {
    const struct decoder *self = decoder_of(decoder);
    size_t unread = source_unread(self);
    if (self->is_ogg || !self->callbacks.tell ||
        self->callbacks.tell(decoder, position, self->callbacks.client_data) != FLAC__STREAM_DECODER_TELL_STATUS_OK ||
        *position < unread) {
        return false;
    }
    *position -= unread;
    return true;
}
