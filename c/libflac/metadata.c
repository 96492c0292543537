/* metadata.c: the head of the stream. */
#include "decoder.h"

/* Whether the stream goes on with these bytes. `is_stopped` is set where it can't be read as far as that is known. */
static int goes_on_with(struct decoder *self, const char *bytes, size_t length, int *is_stopped) {
    size_t i;
    for (i = 0; i < length; i++) {
        if (!source_hold(self, i + 1)) {
            *is_stopped = 1;
            return 0;
        }
        if (source_bytes(self)[i] != (uint8_t)bytes[i]) {
            return 0;
        }
    }
    return 1;
}

static int goes_on_with_frame(struct decoder *self, int *is_stopped) {
    if (!goes_on_with(self, "\xff", 1, is_stopped)) {
        return 0;
    }
    if (!source_hold(self, 2)) {
        *is_stopped = 1;
        return 0;
    }
    return source_bytes(self)[1] >> 1 == 0x7c;
}

/* Passes over bytes that aren't held. */
static int skip(struct decoder *self, size_t length) {
    while (length > 0) {
        size_t count;
        if (!source_hold(self, 1)) {
            return false;
        }
        count = length < self->source.held ? length : self->source.held;
        source_pass(self, count);
        length -= count;
    }
    return true;
}

/* Passes over an ID3v2 tag: ten bytes, of which the last four say seven bits each of how many follow, and a footer of ten bytes
 * where a flag says so. */
static int skip_id3(struct decoder *self) {
    const uint8_t *bytes;
    size_t length, footer;
    if (!source_hold(self, 10)) {
        return false;
    }
    bytes = source_bytes(self);
    length =
        (size_t)(bytes[6] & 0x7f) << 21 | (size_t)(bytes[7] & 0x7f) << 14 | (size_t)(bytes[8] & 0x7f) << 7 | (bytes[9] & 0x7f);
    footer = bytes[5] & 0x10 ? 10 : 0;
    return skip(self, 10 + length + footer);
}

int find_metadata(struct decoder *self) {
    int is_stopped = 0, is_told = 0;
    for (;;) {
        uint8_t byte;
        if (goes_on_with(self, "fLaC", 4, &is_stopped)) {
            source_pass(self, 4);
            self->state = FLAC__STREAM_DECODER_READ_METADATA;
            return true;
        }
        if (!is_stopped && goes_on_with_frame(self, &is_stopped)) {
            if (!engine_start(self)) {
                return false;
            }
            self->state = FLAC__STREAM_DECODER_READ_FRAME;
            return true;
        }
        if (!is_stopped && goes_on_with(self, "ID3", 3, &is_stopped)) {
            if (!skip_id3(self)) {
                return false;
            }
            continue;
        }
        if (is_stopped) {
            return false;
        }
        byte = source_bytes(self)[0];
        if (!is_told || byte == 'f') { /* libFLAC begins anew after a byte that the marker has */
            send_error(self, FLAC__STREAM_DECODER_ERROR_STATUS_LOST_SYNC);
            is_told = 1;
        }
        source_pass(self, 1);
    }
}

/* Keeps what a streaminfo block says. */
static void keep_streaminfo(struct decoder *self, const FLAC__StreamMetadata *block, const uint8_t *content) {
    static const uint8_t none[16] = {0};
    self->has_streaminfo = true;
    self->streaminfo = block->data.stream_info;
    memcpy(self->head, "fLaC\x80\0\0\x22", 8);
    memcpy(self->head + 8, content, ENGINE_HEAD - 8);
    self->head_length = ENGINE_HEAD;
    if (memcmp(self->streaminfo.md5sum, none, 16) == 0) {
        self->hashes = false;
    }
}

/* Parses the content of a block, and hands it to the program. */
static int hand_metadata(struct decoder *self, FLAC__StreamMetadata *block, int is_wanted) {
    struct block_memory memory = {NULL, NULL};
    const uint8_t *content = source_bytes(self);
    enum content_status status = parse_content(block, content, &memory);
    if (status == CONTENT_NO_MEMORY) {
        free_content(&memory);
        return fail(self, FLAC__STREAM_DECODER_MEMORY_ALLOCATION_ERROR);
    }
    if (status == CONTENT_OK && block->type == FLAC__METADATA_TYPE_STREAMINFO) {
        keep_streaminfo(self, block, content);
    }
    source_pass(self, block->length);
    if (status == CONTENT_BAD) {
        send_error(self, FLAC__STREAM_DECODER_ERROR_STATUS_BAD_METADATA);
    } else if (is_wanted && self->callbacks.metadata && !self->is_seeking) {
        self->callbacks.metadata(&self->base, block, self->callbacks.client_data);
    }
    free_content(&memory);
    return true;
}

/* Whether the program wants the block, by its type and, of an application block, by its number. */
static int is_wanted(struct decoder *self, const FLAC__StreamMetadata *block, int *is_stopped) {
    const uint8_t *id = NULL;
    if (block->type == FLAC__METADATA_TYPE_APPLICATION && block->length >= 4) {
        if (!source_hold(self, 4)) {
            *is_stopped = 1;
            return 0;
        }
        id = source_bytes(self);
    }
    return responds_to(&self->settings, block->type, id);
}

int read_metadata(struct decoder *self) {
    FLAC__StreamMetadata block;
    struct claxon_metadata header;
    size_t at = 0;
    int wanted, is_read, is_stopped = 0;
    if (!source_hold(self, 4)) {
        return false;
    }
    claxon_next_metadata(source_bytes(self), 4, &at, &header);
    source_pass(self, 4);
    memset(&block, 0, sizeof block);
    block.type = (FLAC__MetadataType)header.type;
    block.is_last = header.is_last ? true : false;
    block.length = header.length;
    wanted = is_wanted(self, &block, &is_stopped);
    if (is_stopped) {
        return false;
    }
    is_read = wanted || block.type == FLAC__METADATA_TYPE_STREAMINFO;
    if (is_read ? !source_hold(self, block.length) || !hand_metadata(self, &block, wanted) : !skip(self, block.length)) {
        return false;
    }
    return block.is_last ? engine_start(self) : true;
}
