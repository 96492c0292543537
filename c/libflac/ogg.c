/* ogg.c: the bytes of a native stream in the packets of Ogg (RFC 3533; RFC 9639, section 10.1), by libogg. */
#include "decoder.h"

#ifdef CLAXON_FLAC_OGG

/* How many bytes are read at once. */
#define OGG_STEP 8192

/* How close a search for a page comes before pages are read in order. */
#define OGG_NEAR 65536

/* The bytes of the first packet before the native stream: 0x7f, FLAC, two of the version and two that count packets. */
#define OGG_MAPPING 9

int ogg_is_supported(void) {
    return 1;
}

int ogg_start(struct decoder *self) {
    memset(&self->ogg, 0, sizeof self->ogg);
    self->ogg.serial_number = self->settings.serial_number;
    self->ogg.has_serial_number = self->settings.has_serial_number;
    return ogg_sync_init(&self->ogg.pages) == 0;
}

void ogg_restart(struct decoder *self) {
    struct ogg *ogg = &self->ogg;
    ogg_sync_reset(&ogg->pages);
    if (ogg->has_packets) {
        ogg_stream_reset(&ogg->packets);
    }
    ogg->has_packet = 0;
    ogg->has_ended = 0;
}

void ogg_stop(struct decoder *self) {
    ogg_sync_clear(&self->ogg.pages);
    if (self->ogg.has_packets) {
        ogg_stream_clear(&self->ogg.packets);
    }
    memset(&self->ogg, 0, sizeof self->ogg);
}

/* Reads on to the next page of the logical stream. */
static FLAC__StreamDecoderReadStatus next_page(struct decoder *self, ogg_page *page) {
    struct ogg *ogg = &self->ogg;
    for (;;) {
        int found = ogg_sync_pageout(&ogg->pages, page);
        if (found > 0 && (!ogg->has_serial_number || ogg_page_serialno(page) == ogg->serial_number)) {
            ogg->serial_number = ogg_page_serialno(page);
            ogg->has_serial_number = 1;
            return FLAC__STREAM_DECODER_READ_STATUS_CONTINUE;
        }
        if (found == 0) {
            size_t length = OGG_STEP;
            uint8_t *bytes = (uint8_t *)ogg_sync_buffer(&ogg->pages, OGG_STEP);
            FLAC__StreamDecoderReadStatus status;
            if (!bytes) {
                fail(self, FLAC__STREAM_DECODER_MEMORY_ALLOCATION_ERROR);
                return FLAC__STREAM_DECODER_READ_STATUS_ABORT;
            }
            status = read_by_callback(self, bytes, &length);
            if (status != FLAC__STREAM_DECODER_READ_STATUS_CONTINUE) {
                return status;
            }
            ogg_sync_wrote(&ogg->pages, (long)length);
        }
    }
}

/* Hands the next page to the packets. */
static FLAC__StreamDecoderReadStatus read_page(struct decoder *self) {
    struct ogg *ogg = &self->ogg;
    ogg_page page;
    FLAC__StreamDecoderReadStatus status;
    if (ogg->has_ended) {
        return FLAC__STREAM_DECODER_READ_STATUS_END_OF_STREAM;
    }
    status = next_page(self, &page);
    if (status != FLAC__STREAM_DECODER_READ_STATUS_CONTINUE) {
        return status;
    }
    if (!ogg->has_packets) {
        if (ogg_stream_init(&ogg->packets, (int)ogg->serial_number) != 0) {
            fail(self, FLAC__STREAM_DECODER_MEMORY_ALLOCATION_ERROR);
            return FLAC__STREAM_DECODER_READ_STATUS_ABORT;
        }
        ogg->has_packets = 1;
    }
    ogg_stream_pagein(&ogg->packets, &page);
    ogg->has_ended = ogg_page_eos(&page);
    return status;
}

/* Passes over what the first packet has before the native stream. */
static int pass_mapping(struct decoder *self) {
    const ogg_packet *packet = &self->ogg.packet;
    self->ogg.at = 0;
    if (!packet->b_o_s) {
        return true;
    }
    if (packet->bytes < OGG_MAPPING || memcmp(packet->packet,
                                              "\x7f"
                                              "FLAC\x01",
                                              6) != 0) {
        return fail(self, FLAC__STREAM_DECODER_OGG_ERROR);
    }
    self->ogg.at = OGG_MAPPING;
    return true;
}

FLAC__StreamDecoderReadStatus ogg_read(struct decoder *self, uint8_t *bytes, size_t *length) {
    struct ogg *ogg = &self->ogg;
    while (!ogg->has_packet || ogg->at == ogg->packet.bytes) {
        int found = ogg->has_packets ? ogg_stream_packetout(&ogg->packets, &ogg->packet) : 0;
        ogg->has_packet = found > 0;
        if (found > 0 && !pass_mapping(self)) {
            *length = 0;
            return FLAC__STREAM_DECODER_READ_STATUS_ABORT;
        }
        if (found == 0) {
            FLAC__StreamDecoderReadStatus status = read_page(self);
            if (status != FLAC__STREAM_DECODER_READ_STATUS_CONTINUE) {
                *length = 0;
                return status;
            }
        }
    }
    if (*length > (size_t)(ogg->packet.bytes - ogg->at)) {
        *length = (size_t)(ogg->packet.bytes - ogg->at);
    }
    memcpy(bytes, ogg->packet.packet + ogg->at, *length);
    ogg->at += (long)*length;
    return FLAC__STREAM_DECODER_READ_STATUS_CONTINUE;
}

/* Moves the source, and forgets what was read. */
static int move(struct decoder *self, uint64_t position) {
    ogg_restart(self);
    source_clear(self, 0);
    return self->callbacks.seek(&self->base, position, self->callbacks.client_data) == FLAC__STREAM_DECODER_SEEK_STATUS_OK;
}

/* The position in samples that the next page has which has one, or -1 where there is none. */
static int64_t next_position(struct decoder *self) {
    ogg_page page;
    while (next_page(self, &page) == FLAC__STREAM_DECODER_READ_STATUS_CONTINUE) {
        if (ogg_page_granulepos(&page) > 0) {
            return ogg_page_granulepos(&page);
        }
    }
    return -1;
}

/* Goes to a page near the sample before it, or to the start of the stream. */
static int find_page(struct decoder *self, uint64_t sample) {
    uint64_t low = 0, high;
    if (self->callbacks.length(&self->base, &high, self->callbacks.client_data) != FLAC__STREAM_DECODER_LENGTH_STATUS_OK) {
        return false;
    }
    while (high > low && high - low > OGG_NEAR) {
        uint64_t middle = low + (high - low) / 2;
        int64_t position;
        if (!move(self, middle)) {
            return false;
        }
        position = next_position(self);
        if (position >= 0 && (uint64_t)position <= sample) {
            low = middle;
        } else {
            high = middle;
        }
    }
    return move(self, low);
}

int ogg_seek(struct decoder *self, uint64_t sample) {
    if (!find_page(self, sample) || !engine_restart(self)) {
        return fail(self, FLAC__STREAM_DECODER_SEEK_ERROR);
    }
    for (;;) {
        uint64_t begin = 0;
        uint32_t status = engine_resync(self);
        const struct claxon_block *block = &self->engine.block;
        if (status == CLAXON_OK) {
            status = engine_next(self, &begin);
        }
        if (status != CLAXON_OK || block->time > sample) {
            return fail(self, FLAC__STREAM_DECODER_SEEK_ERROR);
        }
        if (sample - block->time < block->duration) {
            self->is_seeking = false;
            self->has_last = false;
            self->is_lost = false;
            self->state = FLAC__STREAM_DECODER_READ_FRAME;
            if (hand_block(self, &self->engine, begin, sample, 1) != HANDED) {
                return fail(self, FLAC__STREAM_DECODER_SEEK_ERROR);
            }
            return true;
        }
    }
}

#else

int ogg_is_supported(void) {
    return 0;
}

int ogg_start(struct decoder *self) {
    (void)self;
    return false;
}

void ogg_restart(struct decoder *self) {
    (void)self;
}

void ogg_stop(struct decoder *self) {
    (void)self;
}

FLAC__StreamDecoderReadStatus ogg_read(struct decoder *self, uint8_t *bytes, size_t *length) {
    (void)self;
    (void)bytes;
    *length = 0;
    return FLAC__STREAM_DECODER_READ_STATUS_ABORT;
}

int ogg_seek(struct decoder *self, uint64_t sample) {
    (void)sample;
    return fail(self, FLAC__STREAM_DECODER_SEEK_ERROR);
}

#endif
