/* frames.c: frames handed to the program. */
#include "decoder.h"

/* How many blocks of silence stand for frames that are missing, at most: as many as libFLAC has. */
#define MAX_SILENT_BLOCKS 50

/* How many samples are hashed at once, so that they stay in a fast cache. */
#define HASHED_AT_ONCE 8192

/* Grows the array of silence. */
static int hold_silence(struct decoder *self, size_t count) {
    int32_t *grown;
    if (count <= self->silence_size) {
        return true;
    }
    grown = (int32_t *)calloc(count, sizeof *grown);
    if (!grown) {
        return fail(self, FLAC__STREAM_DECODER_MEMORY_ALLOCATION_ERROR);
    }
    free(self->silence);
    self->silence = grown;
    self->silence_size = count;
    return true;
}

/* Puts samples of channels that stand one after another, of `duration` samples each, in the order in which they are hashed. Two
 * channels, as most streams have, go together. */
static void interleave(int32_t *to, const int32_t *samples, size_t count, size_t duration, size_t channels) {
    const int32_t *first = samples, *second = samples + duration;
    size_t channel, i;
    if (channels == 2) {
        for (i = 0; i < count; i++) {
            to[2 * i] = first[i];
            to[2 * i + 1] = second[i];
        }
        return;
    }
    for (channel = 0; channel < channels; channel++) {
        for (i = 0; i < count; i++) {
            to[i * channels + channel] = samples[channel * duration + i];
        }
    }
}

/* Puts two samples of 16 bits as one of 32, which has the same bytes: there are half as many to hash. */
static void join(int32_t *to, const int32_t *first, const int32_t *second, size_t count) {
    size_t i;
    for (i = 0; i < count; i++) {
        to[i] = (int32_t)(((uint32_t)first[i] & 0xffff) | (uint32_t)second[i] << 16);
    }
}

/* Hashes a block, a piece at a time. */
static void hash(struct decoder *self, const struct claxon_block *block, const int32_t *samples, uint32_t bits_per_sample) {
    int32_t interleaved[HASHED_AT_ONCE];
    int is_joined = block->channels == 2 && bits_per_sample > 8 && bits_per_sample <= 16;
    size_t most = HASHED_AT_ONCE / block->channels, from = 0;
    while (from < block->duration) {
        size_t count = block->duration - from < most ? block->duration - from : most;
        if (is_joined) {
            join(interleaved, samples + from, samples + block->duration + from, count);
            claxon_md5_samples(&self->md5, interleaved, count, 32);
        } else {
            interleave(interleaved, samples + from, count, block->duration, block->channels);
            claxon_md5_samples(&self->md5, interleaved, count * block->channels, bits_per_sample);
        }
        from += count;
    }
}

/* Whether a sample has more bits than it should have. */
static int is_too_wide(const struct claxon_block *block, const int32_t *samples, uint32_t bits_per_sample) {
    size_t i, count = (size_t)block->channels * block->duration;
    uint32_t half, above = 0;
    if (bits_per_sample < 1 || bits_per_sample > 31) {
        return 0;
    }
    half = (uint32_t)1 << (bits_per_sample - 1);
    for (i = 0; i < count; i++) {
        above |= (uint32_t)samples[i] + half;
    }
    return above >> bits_per_sample != 0;
}

/* The time of the engine's block as libFLAC has it. Where the streaminfo has two sizes the number of a frame in its header is
 * that of a sample. Without a streaminfo the block size is that of the first block, which a head that was made has too. */
static uint64_t time_of(struct decoder *self, const struct claxon_stream *engine, const uint8_t *bytes) {
    const struct claxon_block *block = &engine->block;
    uint64_t number = engine->frames.last.number;
    uint32_t least = self->has_streaminfo ? self->streaminfo.min_blocksize : engine->info.min_block_size;
    uint32_t most = self->has_streaminfo ? self->streaminfo.max_blocksize : engine->info.max_block_size;
    if (raw_has_sample_number(bytes) || (least == most && (self->has_streaminfo || most > 0))) {
        return block->time;
    }
    if (self->has_streaminfo) {
        return number;
    }
    if (self->fixed_block_size == 0) {
        self->fixed_block_size = block->duration;
    }
    return number * self->fixed_block_size;
}

/* How far the next block is from a block. Between blocks with numbers of frames that is the fixed block size, also where one is
 * smaller. */
static uint32_t distance_of(const struct decoder *self, const struct claxon_block *block, const uint8_t *bytes) {
    const FLAC__StreamMetadata_StreamInfo *info = &self->streaminfo;
    uint32_t fixed = !self->has_streaminfo                        ? self->fixed_block_size
                     : info->min_blocksize == info->max_blocksize ? info->min_blocksize
                                                                  : 0;
    return raw_has_sample_number(bytes) || fixed < block->duration ? block->duration : fixed;
}

/* What the header of a block says, and where it leaves that to the streaminfo, what that says. */
static void fill_header(const struct decoder *self, FLAC__FrameHeader *header, const struct claxon_block *block) {
    header->blocksize = block->duration;
    header->sample_rate = block->sample_rate || !self->has_streaminfo ? block->sample_rate : self->streaminfo.sample_rate;
    header->channels = block->channels;
    header->bits_per_sample =
        block->bits_per_sample || !self->has_streaminfo ? block->bits_per_sample : self->streaminfo.bits_per_sample;
    header->number_type = FLAC__FRAME_NUMBER_TYPE_SAMPLE_NUMBER;
}

/* Calls the write callback with the frame, from a sample of it on. The program may look at the frame and at the samples until
 * the next call, as some do. */
static int write_frame(struct decoder *self, const int32_t *samples, size_t skipped) {
    FLAC__FrameHeader *header = &self->frame.header;
    size_t channel, duration = header->blocksize;
    for (channel = 0; channel < header->channels; channel++) {
        self->channels[channel] = samples + channel * duration + skipped;
    }
    header->blocksize -= (uint32_t)skipped;
    header->number.sample_number += skipped;
    if (self->callbacks.write(&self->base, &self->frame, self->channels, self->callbacks.client_data) !=
        FLAC__STREAM_DECODER_WRITE_STATUS_CONTINUE) {
        return fail(self, FLAC__STREAM_DECODER_ABORTED);
    }
    return true;
}

/* Whether frames are missing between the last frame and one with this header, in a stream that goes on in the same format. */
static int is_after_gap(const struct decoder *self, const FLAC__FrameHeader *header) {
    const FLAC__FrameHeader *last = &self->last;
    return self->has_last && self->next_sample < header->number.sample_number && last->channels == header->channels &&
           last->bits_per_sample == header->bits_per_sample && last->sample_rate == header->sample_rate;
}

/* Hands over silence for the frames that are missing before this sample, with the header of the last one. */
static int write_silence(struct decoder *self, uint64_t until) {
    struct claxon_block block = {0, 0, 0, 0, 0};
    size_t blocks;
    block.channels = self->last.channels;
    for (blocks = 0; self->next_sample < until && blocks < MAX_SILENT_BLOCKS; blocks++) {
        uint64_t missing = until - self->next_sample;
        block.duration = missing < self->last.blocksize ? (uint32_t)missing : self->last.blocksize;
        if (!hold_silence(self, (size_t)block.channels * block.duration)) {
            return false;
        }
        memset(&self->frame, 0, sizeof self->frame);
        self->frame.header = self->last;
        self->frame.header.blocksize = block.duration;
        self->frame.header.number.sample_number = self->next_sample;
        self->next_sample += block.duration;
        if (self->hashes) {
            hash(self, &block, self->silence, self->last.bits_per_sample);
        }
        if (!write_frame(self, self->silence, 0)) {
            return false;
        }
    }
    return true;
}

/* Hands over a block whose frame has this header and these bytes. */
static int write_block(struct decoder *self, const struct claxon_stream *engine, const FLAC__FrameHeader *header,
                       const uint8_t *bytes, size_t length, size_t skipped) {
    if (is_after_gap(self, header) && !write_silence(self, header->number.sample_number)) {
        return false;
    }
    if (!hold_silence(self, header->blocksize)) {
        return false;
    }
    if (self->hashes) {
        hash(self, &engine->block, engine->samples, header->bits_per_sample);
    }
    memset(&self->frame, 0, sizeof self->frame);
    self->frame.header = *header;
    raw_fill_rest(&self->frame, bytes, length, engine->samples);
    fill_contents(&self->frame, self->silence);
    return write_frame(self, engine->samples, skipped);
}

/* Tells why a block that was decoded isn't handed over: a sample has more bits than it should have, or nothing says how many
 * samples a second has. Returns whether that is so. */
static int is_refused(struct decoder *self, const struct claxon_stream *engine, const FLAC__FrameHeader *header) {
    if (header->sample_rate == 0 && !self->has_streaminfo) {
        send_error(self, FLAC__STREAM_DECODER_ERROR_STATUS_UNPARSEABLE_STREAM);
    } else if (is_too_wide(&engine->block, engine->samples, header->bits_per_sample)) {
        send_error(self, FLAC__STREAM_DECODER_ERROR_STATUS_FRAME_CRC_MISMATCH);
    } else {
        return false;
    }
    send_error(self, FLAC__STREAM_DECODER_ERROR_STATUS_LOST_SYNC);
    return true;
}

enum handed hand_block(struct decoder *self, const struct claxon_stream *engine, uint64_t begin, uint64_t from,
                       int is_written) {
    const struct claxon_block *block = &engine->block;
    const uint8_t *bytes = source_bytes(self) + (begin - self->source.base);
    size_t length = (size_t)(engine->position - begin);
    FLAC__FrameHeader header;
    int is_done = 1;
    memset(&header, 0, sizeof header);
    fill_header(self, &header, block);
    header.number.sample_number = time_of(self, engine, bytes);
    raw_fill_header(&header, bytes);
    if (is_refused(self, engine, &header)) {
        return HANDED_NOTHING;
    }
    if (is_written) {
        is_done = write_block(self, engine, &header, bytes, length, from > block->time ? (size_t)(from - block->time) : 0);
    }
    self->last = header;
    self->has_last = true;
    self->next_sample = header.number.sample_number + distance_of(self, block, bytes);
    if (!is_done) {
        return HANDED_IN_VAIN;
    }
    self->state = FLAC__STREAM_DECODER_SEARCH_FOR_FRAME_SYNC;
    return HANDED;
}

/* Whether the header of the frame that was refused is there. */
static int has_header(const struct decoder *self) {
    const struct claxon_stream *engine = &self->engine;
    const uint8_t *bytes = source_bytes(self) + (engine->position - self->source.base);
    struct claxon_block block;
    size_t at = 0;
    int32_t none;
    char text[1];
    return claxon_next_block(bytes, source_unread(self), &at, &engine->info, &none, 0, &block, text, sizeof text) ==
           CLAXON_BUFFER_TOO_SMALL;
}

/* What the error callback is told of a fault. A reserved value in a header whose CRC is wrong is damage. */
static FLAC__StreamDecoderErrorStatus error_of(const struct decoder *self) {
    const uint8_t *bytes = source_bytes(self) + (self->engine.position - self->source.base);
    switch (raw_header(bytes, source_unread(self))) {
    case RAW_NO_SYNC: return FLAC__STREAM_DECODER_ERROR_STATUS_LOST_SYNC;
    case RAW_DAMAGED: return FLAC__STREAM_DECODER_ERROR_STATUS_BAD_HEADER;
    default: return engine_error(&self->engine);
    }
}

/* Tells of a fault, after which the next frame is searched. Returns whether that is so. */
static int tell_fault(struct decoder *self, uint32_t status) {
    FLAC__StreamDecoderErrorStatus error = error_of(self);
    self->is_lost = true;
    self->is_told = true;
    if (status == CLAXON_INPUT_ENDS && !has_header(self)) {
        return stop(self);
    }
    if (error != FLAC__STREAM_DECODER_ERROR_STATUS_LOST_SYNC) {
        send_error(self, error);
    }
    send_error(self, FLAC__STREAM_DECODER_ERROR_STATUS_LOST_SYNC);
    self->state = FLAC__STREAM_DECODER_SEARCH_FOR_FRAME_SYNC;
    return true;
}

/* Goes to the next frame, where it isn't known where that is. */
static uint32_t find_frame(struct decoder *self) {
    uint64_t position = self->engine.position;
    uint32_t status = engine_resync(self);
    if (!self->is_told && self->engine.position > position && (status == CLAXON_OK || status == CLAXON_NO_MORE)) {
        send_error(self, FLAC__STREAM_DECODER_ERROR_STATUS_LOST_SYNC);
    }
    return status;
}

/* The end of the stream. A byte that is left begins no frame, unless it is the first one of a sync code. */
static int end(struct decoder *self) {
    if (source_unread(self) == 1 && self->source.window[self->source.start + self->source.held - 1] != 0xff) {
        send_error(self, FLAC__STREAM_DECODER_ERROR_STATUS_LOST_SYNC);
    }
    stop(self);
    return true;
}

int read_frame(struct decoder *self, int is_written) {
    for (;;) {
        uint64_t begin = 0;
        enum handed handed = HANDED_NOTHING;
        uint32_t status = self->is_lost ? find_frame(self) : (uint32_t)CLAXON_OK;
        if (status == CLAXON_OK) {
            self->is_lost = false;
            self->state = FLAC__STREAM_DECODER_READ_FRAME;
            status = engine_next(self, &begin);
        }
        switch (status) {
        case CLAXON_OK: handed = hand_block(self, &self->engine, begin, 0, is_written); break;
        case CLAXON_NO_MORE: return end(self);
        case CLAXON_NEED_MORE: return false;
        case CLAXON_OUT_OF_MEMORY: return fail(self, FLAC__STREAM_DECODER_MEMORY_ALLOCATION_ERROR);
        default:
            if (!tell_fault(self, status)) {
                return false;
            }
        }
        if (handed != HANDED_NOTHING) {
            return handed == HANDED;
        }
    }
}
