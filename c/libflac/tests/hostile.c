/* hostile ROUNDS FILE: makes calls in many orders on damaged copies of a file, with callbacks that fail by chance, and with
 * each request for memory refused in turn. Nothing may be lost, and each call has to return; sanitizers see the rest. In every
 * other copy the CRCs of damaged frames are right. The same numbers are drawn each time. With -DFUZZED it is a target of
 * libFuzzer, whose bytes are the numbers and the stream. */
#include <FLAC/stream_decoder.h>
#include <stdio.h>
#include <stdlib.h>
#include <string.h>

#include "claxon.h"

#define CALLS 40
#define MAX_STEPS 200000

struct source {
    const uint8_t *bytes;
    size_t length, at;
    uint32_t drawn;
    unsigned fails; /* one of so many callbacks fails, or none */
    unsigned long steps;
};

static uint32_t draw(struct source *source) {
    source->drawn = source->drawn * 1664525u + 1013904223u;
    return source->drawn >> 8;
}

static int has_failed(struct source *source) {
    return ++source->steps > MAX_STEPS || (source->fails > 0 && draw(source) % source->fails == 0);
}

static FLAC__StreamDecoderReadStatus on_read(const FLAC__StreamDecoder *decoder, FLAC__byte *bytes, size_t *length,
                                             void *data) {
    struct source *source = (struct source *)data;
    size_t count = 1 + draw(source) % (source->fails % 2 ? 50 : 70000);
    (void)decoder;
    count = count < *length ? count : *length;
    count = count < source->length - source->at ? count : source->length - source->at;
    *length = 0;
    if (has_failed(source)) {
        return FLAC__STREAM_DECODER_READ_STATUS_ABORT;
    }
    memcpy(bytes, source->bytes + source->at, count);
    source->at += count;
    *length = count;
    return count == 0 ? FLAC__STREAM_DECODER_READ_STATUS_END_OF_STREAM : FLAC__STREAM_DECODER_READ_STATUS_CONTINUE;
}

static FLAC__StreamDecoderSeekStatus on_seek(const FLAC__StreamDecoder *decoder, FLAC__uint64 position, void *data) {
    struct source *source = (struct source *)data;
    (void)decoder;
    if (has_failed(source)) {
        return FLAC__STREAM_DECODER_SEEK_STATUS_ERROR;
    }
    source->at = position < source->length ? (size_t)position : source->length;
    return FLAC__STREAM_DECODER_SEEK_STATUS_OK;
}

static FLAC__StreamDecoderTellStatus on_tell(const FLAC__StreamDecoder *decoder, FLAC__uint64 *position, void *data) {
    struct source *source = (struct source *)data;
    (void)decoder;
    *position = source->at;
    return has_failed(source) ? FLAC__STREAM_DECODER_TELL_STATUS_ERROR : FLAC__STREAM_DECODER_TELL_STATUS_OK;
}

static FLAC__StreamDecoderLengthStatus on_length(const FLAC__StreamDecoder *decoder, FLAC__uint64 *length, void *data) {
    struct source *source = (struct source *)data;
    (void)decoder;
    *length = source->length;
    return has_failed(source) ? FLAC__STREAM_DECODER_LENGTH_STATUS_ERROR : FLAC__STREAM_DECODER_LENGTH_STATUS_OK;
}

static FLAC__bool on_eof(const FLAC__StreamDecoder *decoder, void *data) {
    struct source *source = (struct source *)data;
    (void)decoder;
    return source->at == source->length;
}

/* Reads all that is handed over. */
static FLAC__StreamDecoderWriteStatus on_write(const FLAC__StreamDecoder *decoder, const FLAC__Frame *frame,
                                               const FLAC__int32 *const buffer[], void *data) {
    struct source *source = (struct source *)data;
    volatile uint32_t sum = 0;
    uint32_t channel, i;
    (void)decoder;
    for (channel = 0; channel < frame->header.channels; channel++) {
        for (i = 0; i < frame->header.blocksize; i++) {
            sum += (uint32_t)buffer[channel][i];
        }
    }
    return has_failed(source) ? FLAC__STREAM_DECODER_WRITE_STATUS_ABORT : FLAC__STREAM_DECODER_WRITE_STATUS_CONTINUE;
}

static void touch(const void *bytes, size_t length) {
    volatile uint32_t sum = 0;
    size_t i;
    for (i = 0; bytes && i < length; i++) {
        sum += ((const uint8_t *)bytes)[i];
    }
}

static void on_metadata(const FLAC__StreamDecoder *decoder, const FLAC__StreamMetadata *block, void *data) {
    uint32_t i;
    (void)decoder;
    (void)data;
    if (block->type == FLAC__METADATA_TYPE_VORBIS_COMMENT) {
        touch(block->data.vorbis_comment.vendor_string.entry, block->data.vorbis_comment.vendor_string.length + 1);
        for (i = 0; i < block->data.vorbis_comment.num_comments; i++) {
            touch(block->data.vorbis_comment.comments[i].entry, block->data.vorbis_comment.comments[i].length + 1);
        }
    } else if (block->type == FLAC__METADATA_TYPE_PICTURE) {
        touch(block->data.picture.mime_type, strlen(block->data.picture.mime_type));
        touch(block->data.picture.description, strlen((const char *)block->data.picture.description));
        touch(block->data.picture.data, block->data.picture.data_length);
    } else if (block->type == FLAC__METADATA_TYPE_CUESHEET) {
        for (i = 0; i < block->data.cue_sheet.num_tracks; i++) {
            const FLAC__StreamMetadata_CueSheet_Track *track = &block->data.cue_sheet.tracks[i];
            touch(track->indices, track->num_indices * sizeof *track->indices);
        }
    } else if (block->type == FLAC__METADATA_TYPE_SEEKTABLE) {
        touch(block->data.seek_table.points, block->data.seek_table.num_points * sizeof *block->data.seek_table.points);
    } else if (block->type >= FLAC__METADATA_TYPE_UNDEFINED) {
        touch(block->data.unknown.data, block->length);
    }
}

static void on_error(const FLAC__StreamDecoder *decoder, FLAC__StreamDecoderErrorStatus status, void *data) {
    (void)decoder;
    (void)status;
    (void)data;
}

static void begin(FLAC__StreamDecoder *decoder, struct source *source) {
    int can_seek = draw(source) % 4 != 0;
    FLAC__stream_decoder_set_md5_checking(decoder, (FLAC__bool)(draw(source) % 2));
    if (draw(source) % 2) {
        FLAC__stream_decoder_set_metadata_respond_all(decoder);
    }
    if (draw(source) % 4 == 0) {
        FLAC__stream_decoder_set_metadata_ignore_application(decoder, (const FLAC__byte *)"abcd");
    }
    (draw(source) % 4 == 0 ? FLAC__stream_decoder_init_ogg_stream : FLAC__stream_decoder_init_stream)(
        decoder, on_read, can_seek ? on_seek : NULL,
        draw(source) % 4 ? on_tell
        : can_seek       ? on_tell
                         : NULL,
        can_seek ? on_length : NULL, can_seek ? on_eof : NULL, on_write, on_metadata, on_error, source);
}

static void call(FLAC__StreamDecoder *decoder, struct source *source) {
    FLAC__uint64 position;
    switch (draw(source) % 12) {
    case 0: begin(decoder, source); break;
    case 1:
    case 2: FLAC__stream_decoder_process_single(decoder); break;
    case 3: FLAC__stream_decoder_process_until_end_of_metadata(decoder); break;
    case 4: FLAC__stream_decoder_process_until_end_of_stream(decoder); break;
    case 5: FLAC__stream_decoder_skip_single_frame(decoder); break;
    case 6:
    case 7: FLAC__stream_decoder_seek_absolute(decoder, draw(source) % 12000); break;
    case 8: FLAC__stream_decoder_flush(decoder); break;
    case 9: FLAC__stream_decoder_reset(decoder); break;
    case 10: FLAC__stream_decoder_get_decode_position(decoder, &position); break;
    default:
        if (draw(source) % 4 == 0) {
            FLAC__stream_decoder_finish(decoder);
        }
        break;
    }
}

/* Makes calls in an order that is drawn. */
static void run(const uint8_t *bytes, size_t length, uint32_t seed, unsigned fails) {
    struct source source;
    FLAC__StreamDecoder *decoder = FLAC__stream_decoder_new();
    int i;
    memset(&source, 0, sizeof source);
    source.bytes = bytes;
    source.length = length;
    source.drawn = seed;
    source.fails = fails;
    if (!decoder) {
        return;
    }
    begin(decoder, &source);
    for (i = 0; i < CALLS && source.steps < MAX_STEPS; i++) {
        call(decoder, &source);
    }
    FLAC__stream_decoder_delete(decoder);
}

/* Where the next sync code is from a position on, or the length. */
static size_t find_sync(const uint8_t *bytes, size_t length, size_t at) {
    while (at + 1 < length && (bytes[at] != 0xff || bytes[at + 1] >> 1 != 0x7c)) {
        at++;
    }
    return at + 1 < length ? at : length;
}

/* The length of a frame header without its CRC (RFC 9639, section 9.1). */
static size_t header_length(const uint8_t *bytes) {
    unsigned size_code = bytes[2] >> 4, rate_code = bytes[2] & 15, first = bytes[4];
    size_t length = 5;
    while ((first & 0xc0) == 0xc0) {
        first <<= 1;
        length++;
    }
    length += size_code == 6 ? 1 : size_code == 7 ? 2 : 0;
    return length + (rate_code == 12 ? 1 : rate_code == 13 || rate_code == 14 ? 2 : 0);
}

static uint8_t crc8_of(const uint8_t *bytes, size_t length) {
    unsigned crc = 0, bit;
    size_t i;
    for (i = 0; i < length; i++) {
        crc ^= bytes[i];
        for (bit = 0; bit < 8; bit++) {
            crc = crc & 0x80 ? (crc << 1 ^ 0x07) & 0xff : crc << 1;
        }
    }
    return (uint8_t)crc;
}

/* Mends the CRCs of frames, from each sync code to the next one. So more is read of what is damaged in them. */
static void mend(uint8_t *bytes, size_t length) {
    size_t begin = find_sync(bytes, length, 0), end;
    for (; begin < length; begin = end) {
        end = find_sync(bytes, length, begin + 2);
        if (end - begin > 20) {
            size_t header = header_length(bytes + begin);
            uint16_t crc;
            bytes[begin + header] = crc8_of(bytes + begin, header);
            crc = claxon_crc16(0, bytes + begin, end - begin - 2);
            bytes[end - 2] = (uint8_t)(crc >> 8);
            bytes[end - 1] = (uint8_t)crc;
        }
    }
}

#ifdef FUZZED

int LLVMFuzzerTestOneInput(const uint8_t *bytes, size_t length) {
    uint8_t *copy = length > 5 ? (uint8_t *)malloc(length - 5) : NULL;
    if (copy) {
        uint32_t seed = bytes[0] | (uint32_t)bytes[1] << 8 | (uint32_t)bytes[2] << 16 | (uint32_t)bytes[3] << 24;
        memcpy(copy, bytes + 5, length - 5);
        if (bytes[4] & 1) {
            mend(copy, length - 5);
        }
        run(copy, length - 5, seed, bytes[4] >> 1);
    }
    free(copy);
    return 0;
}

#else

/* The request for memory that is refused, counted from 1, or 0. */
static unsigned long requests, refused;

void *__real_malloc(size_t size);
void *__real_calloc(size_t count, size_t size);
void *__real_realloc(void *memory, size_t size);

void *__wrap_malloc(size_t size) {
    return ++requests == refused ? NULL : __real_malloc(size);
}

void *__wrap_calloc(size_t count, size_t size) {
    return ++requests == refused ? NULL : __real_calloc(count, size);
}

void *__wrap_realloc(void *memory, size_t size) {
    return ++requests == refused ? NULL : __real_realloc(memory, size);
}

/* Refuses each request of one order of calls in turn. */
static void refuse_each(const uint8_t *bytes, size_t length, uint32_t seed) {
    unsigned long i, count;
    requests = 0;
    refused = 0;
    run(bytes, length, seed, 0);
    count = requests < 150 ? requests : 150;
    for (i = 1; i <= count; i++) {
        requests = 0;
        refused = i;
        run(bytes, length, seed, 0);
    }
    refused = 0;
}

/* Changes some bytes of a copy. */
static void damage(uint8_t *copy, const uint8_t *bytes, size_t length, struct source *source) {
    uint32_t i, count = draw(source) % 6;
    memcpy(copy, bytes, length);
    for (i = 0; i < count; i++) {
        size_t from = draw(source) % 3 == 0 ? 300 : length;
        copy[draw(source) % (from < length ? from : length)] = (uint8_t)draw(source);
    }
}

int main(int count, char **words) {
    static uint8_t bytes[1 << 20], copy[1 << 20];
    struct source source;
    FILE *file;
    size_t length;
    long round, rounds = count == 3 ? atol(words[1]) : 0;
    memset(&source, 0, sizeof source);
    file = count == 3 ? fopen(words[2], "rb") : NULL;
    if (!file) {
        return 2;
    }
    length = fread(bytes, 1, sizeof bytes, file);
    fclose(file);
    for (round = 0; round < 20 * rounds; round++) {
        damage(copy, bytes, length, &source);
        if (round % 2 > 0) {
            mend(copy, length);
        }
        run(copy, length - draw(&source) % 100, (uint32_t)round, (unsigned)(draw(&source) % 3 == 0 ? 0 : draw(&source) % 60));
    }
    for (round = 0; round < rounds; round++) {
        damage(copy, bytes, length, &source);
        refuse_each(copy, length, (uint32_t)round);
    }
    printf("hostile: %ld orders of calls on damaged streams, and %ld with each of their requests for memory refused\n",
           20 * rounds, rounds);
    return 0;
}

#endif
