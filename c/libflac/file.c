/* file.c: the callbacks of the forms that read a file. */
#define _POSIX_C_SOURCE 200809L
#include "decoder.h"

FLAC__StreamDecoderReadStatus file_read(const FLAC__StreamDecoder *decoder, FLAC__byte *bytes, size_t *length,
                                        void *client_data) {
    FILE *file = decoder_of(decoder)->file;
    (void)client_data;
    *length = fread(bytes, 1, *length, file);
    if (ferror(file)) {
        return FLAC__STREAM_DECODER_READ_STATUS_ABORT;
    }
    return *length == 0 ? FLAC__STREAM_DECODER_READ_STATUS_END_OF_STREAM : FLAC__STREAM_DECODER_READ_STATUS_CONTINUE;
}

FLAC__StreamDecoderSeekStatus file_seek(const FLAC__StreamDecoder *decoder, FLAC__uint64 position, void *client_data) {
    FILE *file = decoder_of(decoder)->file;
    (void)client_data;
    if (file == stdin) {
        return FLAC__STREAM_DECODER_SEEK_STATUS_UNSUPPORTED;
    }
    return fseeko(file, (off_t)position, SEEK_SET) < 0 ? FLAC__STREAM_DECODER_SEEK_STATUS_ERROR
                                                       : FLAC__STREAM_DECODER_SEEK_STATUS_OK;
}

FLAC__StreamDecoderTellStatus file_tell(const FLAC__StreamDecoder *decoder, FLAC__uint64 *position, void *client_data) {
    FILE *file = decoder_of(decoder)->file;
    off_t at;
    (void)client_data;
    if (file == stdin) {
        return FLAC__STREAM_DECODER_TELL_STATUS_UNSUPPORTED;
    }
    at = ftello(file);
    if (at < 0) {
        return FLAC__STREAM_DECODER_TELL_STATUS_ERROR;
    }
    *position = (FLAC__uint64)at;
    return FLAC__STREAM_DECODER_TELL_STATUS_OK;
}

FLAC__StreamDecoderLengthStatus file_length(const FLAC__StreamDecoder *decoder, FLAC__uint64 *length, void *client_data) {
    FILE *file = decoder_of(decoder)->file;
    off_t at, end;
    (void)client_data;
    if (file == stdin) {
        return FLAC__STREAM_DECODER_LENGTH_STATUS_UNSUPPORTED;
    }
    at = ftello(file);
    if (at < 0 || fseeko(file, 0, SEEK_END) != 0) {
        return FLAC__STREAM_DECODER_LENGTH_STATUS_ERROR;
    }
    end = ftello(file);
    if (end < 0 || fseeko(file, at, SEEK_SET) != 0) {
        return FLAC__STREAM_DECODER_LENGTH_STATUS_ERROR;
    }
    *length = (FLAC__uint64)end;
    return FLAC__STREAM_DECODER_LENGTH_STATUS_OK;
}

FLAC__bool file_eof(const FLAC__StreamDecoder *decoder, void *client_data) {
    (void)client_data;
    return feof(decoder_of(decoder)->file) ? true : false;
}
