/* init.c: the calls that begin and end a stream. */
#include "decoder.h"

int FLAC_API_SUPPORTS_OGG_FLAC =
#ifdef CLAXON_FLAC_OGG
    1;
#else
    0;
#endif

/* Forgets what was read. */
static void forget_input(struct decoder *self) {
    engine_stop(self);
    source_clear(self, 0);
    self->is_lost = false;
    self->has_last = false;
    self->hashes = false;
}

/* Forgets the head of the stream, too. */
static void forget_stream(struct decoder *self) {
    forget_input(self);
    self->has_streaminfo = false;
    self->fixed_block_size = 0;
    self->first_frame = 0;
    self->reads_ahead = false;
    self->head_length = 0;
    self->hashes = self->settings.checks_md5;
    claxon_md5_start(&self->md5);
    self->state = FLAC__STREAM_DECODER_SEARCH_FOR_METADATA;
}

/* Checks callbacks as FLAC/stream_decoder.h wants them. */
static int are_valid(const struct callbacks *callbacks) {
    return callbacks->read && callbacks->write && callbacks->error &&
           (!callbacks->seek || (callbacks->tell && callbacks->length && callbacks->eof));
}

static FLAC__StreamDecoderInitStatus init_stream(struct decoder *self, const struct callbacks *callbacks, FLAC__bool is_ogg) {
    if (is_initialized(self)) {
        return FLAC__STREAM_DECODER_INIT_STATUS_ALREADY_INITIALIZED;
    }
    if (is_ogg && !ogg_is_supported()) {
        return FLAC__STREAM_DECODER_INIT_STATUS_UNSUPPORTED_CONTAINER;
    }
    if (!are_valid(callbacks)) {
        return FLAC__STREAM_DECODER_INIT_STATUS_INVALID_CALLBACKS;
    }
    if (is_ogg && !ogg_start(self)) {
        self->state = FLAC__STREAM_DECODER_MEMORY_ALLOCATION_ERROR;
        return FLAC__STREAM_DECODER_INIT_STATUS_MEMORY_ALLOCATION_ERROR;
    }
    self->callbacks = *callbacks;
    self->is_ogg = is_ogg;
    self->read = is_ogg ? ogg_read : read_by_callback;
    forget_stream(self);
    return FLAC__STREAM_DECODER_INIT_STATUS_OK;
}

/* The callbacks of a form that reads a file. */
static struct callbacks file_callbacks(FILE *file, FLAC__StreamDecoderWriteCallback write,
                                       FLAC__StreamDecoderMetadataCallback metadata, FLAC__StreamDecoderErrorCallback error,
                                       void *client_data) {
    struct callbacks callbacks = {file_read, file_seek, file_tell, file_length, file_eof, write, metadata, error, client_data};
    if (file == stdin) {
        callbacks.seek = NULL;
        callbacks.tell = NULL;
        callbacks.length = NULL;
    }
    return callbacks;
}

static FLAC__StreamDecoderInitStatus init_file(struct decoder *self, FILE *file, const struct callbacks *callbacks,
                                               FLAC__bool is_ogg) {
    FLAC__StreamDecoderInitStatus status;
    if (is_initialized(self)) {
        return FLAC__STREAM_DECODER_INIT_STATUS_ALREADY_INITIALIZED;
    }
    if (!callbacks->write || !callbacks->error) {
        return FLAC__STREAM_DECODER_INIT_STATUS_INVALID_CALLBACKS;
    }
    status = init_stream(self, callbacks, is_ogg);
    if (status == FLAC__STREAM_DECODER_INIT_STATUS_OK) {
        self->file = file;
    }
    return status;
}

static FLAC__StreamDecoderInitStatus init_name(struct decoder *self, const char *name, struct callbacks *callbacks,
                                               FLAC__bool is_ogg) {
    FILE *file;
    FLAC__StreamDecoderInitStatus status;
    if (is_initialized(self)) {
        return FLAC__STREAM_DECODER_INIT_STATUS_ALREADY_INITIALIZED;
    }
    if (!callbacks->write || !callbacks->error) {
        return FLAC__STREAM_DECODER_INIT_STATUS_INVALID_CALLBACKS;
    }
    file = name ? fopen(name, "rb") : stdin;
    if (!file) {
        return FLAC__STREAM_DECODER_INIT_STATUS_ERROR_OPENING_FILE;
    }
    *callbacks = file_callbacks(file, callbacks->write, callbacks->metadata, callbacks->error, callbacks->client_data);
    status = init_file(self, file, callbacks, is_ogg);
    if (status != FLAC__STREAM_DECODER_INIT_STATUS_OK && file != stdin) {
        fclose(file);
    }
    return status;
}

FLAC__StreamDecoderInitStatus
FLAC__stream_decoder_init_stream(FLAC__StreamDecoder *decoder, FLAC__StreamDecoderReadCallback read,
                                 FLAC__StreamDecoderSeekCallback seek, FLAC__StreamDecoderTellCallback tell,
                                 FLAC__StreamDecoderLengthCallback length, FLAC__StreamDecoderEofCallback eof,
                                 FLAC__StreamDecoderWriteCallback write, FLAC__StreamDecoderMetadataCallback metadata,
                                 FLAC__StreamDecoderErrorCallback error, void *client_data) {
    struct callbacks callbacks = {read, seek, tell, length, eof, write, metadata, error, client_data};
    return init_stream(decoder_of(decoder), &callbacks, false);
}

FLAC__StreamDecoderInitStatus
FLAC__stream_decoder_init_ogg_stream(FLAC__StreamDecoder *decoder, FLAC__StreamDecoderReadCallback read,
                                     FLAC__StreamDecoderSeekCallback seek, FLAC__StreamDecoderTellCallback tell,
                                     FLAC__StreamDecoderLengthCallback length, FLAC__StreamDecoderEofCallback eof,
                                     FLAC__StreamDecoderWriteCallback write, FLAC__StreamDecoderMetadataCallback metadata,
                                     FLAC__StreamDecoderErrorCallback error, void *client_data) {
    struct callbacks callbacks = {read, seek, tell, length, eof, write, metadata, error, client_data};
    return init_stream(decoder_of(decoder), &callbacks, true);
}

FLAC__StreamDecoderInitStatus FLAC__stream_decoder_init_FILE(FLAC__StreamDecoder *decoder, FILE *file,
                                                             FLAC__StreamDecoderWriteCallback write,
                                                             FLAC__StreamDecoderMetadataCallback metadata,
                                                             FLAC__StreamDecoderErrorCallback error, void *client_data) {
    struct callbacks callbacks = file_callbacks(file, write, metadata, error, client_data);
    return init_file(decoder_of(decoder), file, &callbacks, false);
}

FLAC__StreamDecoderInitStatus FLAC__stream_decoder_init_ogg_FILE(FLAC__StreamDecoder *decoder, FILE *file,
                                                                 FLAC__StreamDecoderWriteCallback write,
                                                                 FLAC__StreamDecoderMetadataCallback metadata,
                                                                 FLAC__StreamDecoderErrorCallback error, void *client_data) {
    struct callbacks callbacks = file_callbacks(file, write, metadata, error, client_data);
    return init_file(decoder_of(decoder), file, &callbacks, true);
}

FLAC__StreamDecoderInitStatus FLAC__stream_decoder_init_file(FLAC__StreamDecoder *decoder, const char *filename,
                                                             FLAC__StreamDecoderWriteCallback write,
                                                             FLAC__StreamDecoderMetadataCallback metadata,
                                                             FLAC__StreamDecoderErrorCallback error, void *client_data) {
    struct callbacks callbacks = file_callbacks(NULL, write, metadata, error, client_data);
    return init_name(decoder_of(decoder), filename, &callbacks, false);
}

FLAC__StreamDecoderInitStatus FLAC__stream_decoder_init_ogg_file(FLAC__StreamDecoder *decoder, const char *filename,
                                                                 FLAC__StreamDecoderWriteCallback write,
                                                                 FLAC__StreamDecoderMetadataCallback metadata,
                                                                 FLAC__StreamDecoderErrorCallback error, void *client_data) {
    struct callbacks callbacks = file_callbacks(NULL, write, metadata, error, client_data);
    return init_name(decoder_of(decoder), filename, &callbacks, true);
}

/* Whether the samples that were decoded have the MD5 sum of the streaminfo, if that is checked. */
static FLAC__bool has_md5(const struct decoder *self) {
    uint8_t sum[16];
    if (!self->hashes || !self->has_streaminfo) {
        return true;
    }
    claxon_md5_finish(&self->md5, sum);
    return memcmp(sum, self->streaminfo.md5sum, sizeof sum) == 0;
}

FLAC__bool FLAC__stream_decoder_finish(FLAC__StreamDecoder *decoder) {
    struct decoder *self = decoder_of(decoder);
    FLAC__bool is_right;
    if (!is_initialized(self)) {
        return true;
    }
    is_right = has_md5(self);
    forget_input(self);
    claxon_stream_free(&self->finder);
    if (self->is_ogg) {
        ogg_stop(self);
    }
    source_free(self);
    free(self->silence);
    if (self->file && self->file != stdin) {
        fclose(self->file);
    }
    default_settings(&self->settings);
    memset(&self->callbacks, 0, sizeof self->callbacks);
    self->silence = NULL;
    self->silence_size = 0;
    self->file = NULL;
    self->read = NULL;
    self->is_ogg = false;
    self->state = FLAC__STREAM_DECODER_UNINITIALIZED;
    return is_right;
}

FLAC__bool FLAC__stream_decoder_flush(FLAC__StreamDecoder *decoder) {
    struct decoder *self = decoder_of(decoder);
    if (!is_initialized(self) || !self->read) { /* as where memory was refused before a stream was begun */
        return false;
    }
    forget_input(self);
    if (self->is_ogg) {
        ogg_restart(self);
    }
    self->state = FLAC__STREAM_DECODER_SEARCH_FOR_FRAME_SYNC;
    return engine_restart(self);
}

FLAC__bool FLAC__stream_decoder_reset(FLAC__StreamDecoder *decoder) {
    struct decoder *self = decoder_of(decoder);
    if (!FLAC__stream_decoder_flush(decoder)) {
        return false;
    }
    if (self->file == stdin && stdin) {
        return false;
    }
    if (self->callbacks.seek &&
        self->callbacks.seek(decoder, 0, self->callbacks.client_data) == FLAC__STREAM_DECODER_SEEK_STATUS_ERROR) {
        return false;
    }
    forget_stream(self);
    return true;
}
