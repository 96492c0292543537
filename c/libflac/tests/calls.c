/* calls FOLDER [crc] < ROWS: makes the calls of each row on a decoder, and prints what they return, the decoder's state after
 * each, and what its callbacks are told. Linked with libclaxon_flac and with libFLAC it has to print the same, but for the rows
 * that the table in README.md explains. With `crc` it prints just the frames whose CRCs aren't those of their bytes.
 *
 * A row is: a file in the folder, how it is changed and read (words), then `:` and calls (words). */
#include <FLAC/stream_decoder.h>
#include <inttypes.h>
#include <stdio.h>
#include <stdlib.h>
#include <string.h>

#define MAX_BYTES (4 * 1024 * 1024)

struct session {
    FLAC__StreamDecoder *decoder;
    uint8_t *bytes;
    size_t length, at;
    size_t piece;                           /* how many bytes a read gives at most, or 0 */
    long reads, writes;                     /* how many there were */
    long abort_read, end_read, abort_write; /* which of them aborts or ends, or 0 */
    int no_seek, no_tell, seek_fails, length_fails, tell_fails, seek_unsupported, no_metadata;
    int shows_read; /* whether it prints how many bytes were read before a frame was handed over */
    int checks_crc;
    int has_wrong_crc;
    size_t frame_at; /* where the next frame begins */
    char path[1024];
};

static uint32_t sum_of(uint32_t sum, const void *bytes, size_t length) {
    const uint8_t *byte = (const uint8_t *)bytes;
    size_t i;
    for (i = 0; i < length; i++) {
        sum = (sum ^ byte[i]) * 16777619;
    }
    return sum;
}

static FLAC__StreamDecoderReadStatus on_read(const FLAC__StreamDecoder *decoder, FLAC__byte *bytes, size_t *length,
                                             void *client_data) {
    struct session *session = (struct session *)client_data;
    size_t count = *length, left = session->length - session->at;
    (void)decoder;
    if (session->no_seek && count > 8192) {
        printf("    asked for more than libFLAC asks for\n"); /* which a pipe would wait for */
    }
    session->reads++;
    *length = 0;
    if (session->reads == session->abort_read) {
        return FLAC__STREAM_DECODER_READ_STATUS_ABORT;
    }
    if (left == 0 || session->reads == session->end_read) {
        return FLAC__STREAM_DECODER_READ_STATUS_END_OF_STREAM;
    }
    count = session->piece > 0 && session->piece < count ? session->piece : count;
    count = count < left ? count : left;
    memcpy(bytes, session->bytes + session->at, count);
    session->at += count;
    *length = count;
    return FLAC__STREAM_DECODER_READ_STATUS_CONTINUE;
}

static FLAC__StreamDecoderSeekStatus on_seek(const FLAC__StreamDecoder *decoder, FLAC__uint64 position, void *client_data) {
    struct session *session = (struct session *)client_data;
    (void)decoder;
    if (session->seek_unsupported) {
        return FLAC__STREAM_DECODER_SEEK_STATUS_UNSUPPORTED;
    }
    if (session->seek_fails || position > session->length) {
        return FLAC__STREAM_DECODER_SEEK_STATUS_ERROR;
    }
    session->at = (size_t)position;
    return FLAC__STREAM_DECODER_SEEK_STATUS_OK;
}

static FLAC__StreamDecoderTellStatus on_tell(const FLAC__StreamDecoder *decoder, FLAC__uint64 *position, void *client_data) {
    struct session *session = (struct session *)client_data;
    (void)decoder;
    if (session->tell_fails) {
        return FLAC__STREAM_DECODER_TELL_STATUS_ERROR;
    }
    *position = session->at;
    return FLAC__STREAM_DECODER_TELL_STATUS_OK;
}

static FLAC__StreamDecoderLengthStatus on_length(const FLAC__StreamDecoder *decoder, FLAC__uint64 *length, void *client_data) {
    struct session *session = (struct session *)client_data;
    (void)decoder;
    if (session->length_fails) {
        return FLAC__STREAM_DECODER_LENGTH_STATUS_ERROR;
    }
    *length = session->length;
    return FLAC__STREAM_DECODER_LENGTH_STATUS_OK;
}

static FLAC__bool on_eof(const FLAC__StreamDecoder *decoder, void *client_data) {
    struct session *session = (struct session *)client_data;
    (void)decoder;
    return session->at == session->length;
}

/* The CRC of bytes, of so many bits (RFC 9639, sections 9.1.8 and 9.3). */
static uint32_t crc_of(const uint8_t *bytes, size_t length, unsigned bits, uint32_t polynomial) {
    uint32_t crc = 0, top = (uint32_t)1 << (bits - 1);
    size_t i;
    unsigned bit;
    for (i = 0; i < length; i++) {
        crc ^= (uint32_t)bytes[i] << (bits - 8);
        for (bit = 0; bit < 8; bit++) {
            crc = crc & top ? crc << 1 ^ polynomial : crc << 1;
        }
    }
    return crc & ((top << 1) - 1);
}

/* Whether the frame's CRCs are those of its bytes. */
static int has_crcs(struct session *session, const FLAC__StreamDecoder *decoder, const FLAC__Frame *frame) {
    const uint8_t *bytes = session->bytes + session->frame_at;
    FLAC__uint64 end = 0;
    size_t header;
    if (!FLAC__stream_decoder_get_decode_position(decoder, &end) || end < session->frame_at + 8) {
        return 0;
    }
    for (header = 5; header < 16; header++) {
        if (crc_of(bytes, header, 8, 0x07) == bytes[header]) {
            break;
        }
    }
    return bytes[header] == frame->header.crc &&
           frame->footer.crc == crc_of(bytes, (size_t)end - session->frame_at - 2, 16, 0x8005);
}

/* Notes where the next frame begins. */
static void note_position(struct session *session, const FLAC__StreamDecoder *decoder) {
    FLAC__uint64 position;
    if (session->checks_crc && FLAC__stream_decoder_get_decode_position(decoder, &position)) {
        session->frame_at = (size_t)position;
    }
}

static const char *state_of(const FLAC__StreamDecoder *decoder) {
    return FLAC__stream_decoder_get_resolved_state_string(decoder) + strlen("FLAC__STREAM_DECODER_");
}

static void print_position(const FLAC__StreamDecoder *decoder) {
    FLAC__uint64 position = 0;
    if (FLAC__stream_decoder_get_decode_position(decoder, &position)) {
        printf(" at %" PRIu64, position);
    } else {
        printf(" at no position");
    }
}

/* The kind of the subframe of each channel, and its wasted bits where there are some. */
static void print_kinds(const FLAC__Frame *frame) {
    uint32_t channel;
    printf(", kind");
    for (channel = 0; channel < frame->header.channels; channel++) {
        const FLAC__Subframe *subframe = &frame->subframes[channel];
        printf(" %d", subframe->type);
        if (subframe->wasted_bits > 0) {
            printf("-%u", subframe->wasted_bits);
        }
    }
}

static FLAC__StreamDecoderWriteStatus on_write(const FLAC__StreamDecoder *decoder, const FLAC__Frame *frame,
                                               const FLAC__int32 *const buffer[], void *client_data) {
    struct session *session = (struct session *)client_data;
    const FLAC__FrameHeader *header = &frame->header;
    uint32_t channel, sum = 2166136261u;
    for (channel = 0; channel < header->channels; channel++) {
        sum = sum_of(sum, buffer[channel], header->blocksize * sizeof buffer[channel][0]);
    }
    session->writes++;
    if (session->checks_crc && !has_crcs(session, decoder, frame)) {
        fprintf(stderr, "%s: wrong CRCs at sample %" PRIu64 "\n", session->path, header->number.sample_number);
        session->has_wrong_crc = 1;
    }
    note_position(session, decoder);
    printf("    write %" PRIu64 "+%u, %u Hz, %u channels (%d), %u bits, number type %d", header->number.sample_number,
           header->blocksize, header->sample_rate, header->channels, header->channel_assignment, header->bits_per_sample,
           header->number_type);
    print_kinds(frame);
    printf(", samples %08x", sum);
    if (session->shows_read) {
        printf(" of %zu bytes", session->at);
    }
    print_position(decoder);
    printf(", %s\n", state_of(decoder));
    return session->writes == session->abort_write ? FLAC__STREAM_DECODER_WRITE_STATUS_ABORT
                                                   : FLAC__STREAM_DECODER_WRITE_STATUS_CONTINUE;
}

static void print_text(const char *name, const void *text) {
    printf(" %s %08x", name, text ? sum_of(0, text, strlen((const char *)text)) : 0);
}

static void print_comment(const FLAC__StreamMetadata_VorbisComment *comment) {
    uint32_t i;
    printf(" vendor %u", comment->vendor_string.length);
    print_text("is", comment->vendor_string.entry);
    for (i = 0; i < comment->num_comments; i++) {
        printf(" %u", comment->comments[i].length);
        print_text("is", comment->comments[i].entry);
    }
}

static void print_cue_sheet(const FLAC__StreamMetadata_CueSheet *sheet) {
    uint32_t i, j;
    printf(" lead-in %" PRIu64 " cd %d", sheet->lead_in, sheet->is_cd);
    print_text("catalog", sheet->media_catalog_number);
    for (i = 0; i < sheet->num_tracks; i++) {
        const FLAC__StreamMetadata_CueSheet_Track *track = &sheet->tracks[i];
        printf(" track %u %" PRIu64 " %d %d", track->number, track->offset, track->type, track->pre_emphasis);
        print_text("isrc", track->isrc);
        for (j = 0; j < track->num_indices; j++) {
            printf(" index %u %" PRIu64, track->indices[j].number, track->indices[j].offset);
        }
    }
}

static void print_content(const FLAC__StreamMetadata *block) {
    const FLAC__StreamMetadata_StreamInfo *info = &block->data.stream_info;
    const FLAC__StreamMetadata_Picture *picture = &block->data.picture;
    uint32_t i;
    switch (block->type) {
    case FLAC__METADATA_TYPE_STREAMINFO:
        printf(" %u %u %u %u %u %u %u %" PRIu64 " %08x", info->min_blocksize, info->max_blocksize, info->min_framesize,
               info->max_framesize, info->sample_rate, info->channels, info->bits_per_sample, info->total_samples,
               sum_of(0, info->md5sum, 16));
        break;
    case FLAC__METADATA_TYPE_PADDING: break;
    case FLAC__METADATA_TYPE_APPLICATION:
        printf(" %.4s %08x", (const char *)block->data.application.id,
               sum_of(0, block->data.application.data, block->length - 4));
        break;
    case FLAC__METADATA_TYPE_SEEKTABLE:
        for (i = 0; i < block->data.seek_table.num_points; i++) {
            const FLAC__StreamMetadata_SeekPoint *point = &block->data.seek_table.points[i];
            printf(" %" PRIu64 "/%" PRIu64 "/%u", point->sample_number, point->stream_offset, point->frame_samples);
        }
        break;
    case FLAC__METADATA_TYPE_VORBIS_COMMENT: print_comment(&block->data.vorbis_comment); break;
    case FLAC__METADATA_TYPE_CUESHEET: print_cue_sheet(&block->data.cue_sheet); break;
    case FLAC__METADATA_TYPE_PICTURE:
        printf(" %d %ux%ux%u %u", picture->type, picture->width, picture->height, picture->depth, picture->colors);
        print_text("mime", picture->mime_type);
        print_text("description", picture->description);
        printf(" data %08x", sum_of(0, picture->data, picture->data_length));
        break;
    default: printf(" unknown %08x", sum_of(0, block->data.unknown.data, block->length)); break;
    }
}

static void on_metadata(const FLAC__StreamDecoder *decoder, const FLAC__StreamMetadata *block, void *client_data) {
    note_position((struct session *)client_data, decoder);
    printf("    metadata %d, %u bytes, last %d:", block->type, block->length, block->is_last);
    print_content(block);
    print_position(decoder);
    printf(", %s\n", state_of(decoder));
}

static void on_error(const FLAC__StreamDecoder *decoder, FLAC__StreamDecoderErrorStatus status, void *client_data) {
    (void)client_data;
    (void)decoder;
    printf("    error %s\n", FLAC__StreamDecoderErrorStatusString[status] + strlen("FLAC__STREAM_DECODER_ERROR_STATUS_"));
}

/* Puts bytes before the stream. */
static void put_before(struct session *session, const void *bytes, size_t length) {
    memmove(session->bytes + length, session->bytes, session->length);
    memcpy(session->bytes, bytes, length);
    session->length += length;
}

static void put_at(struct session *session, size_t at, const void *bytes, size_t length) {
    memmove(session->bytes + at + length, session->bytes + at, session->length - at);
    memcpy(session->bytes + at, bytes, length);
    session->length += length;
}

/* A metadata block after the streaminfo: its type and its content in hexadecimal digits. */
static void put_block(struct session *session, const char *words) {
    uint8_t block[4096];
    unsigned type, byte;
    int used;
    size_t length = 4;
    if (sscanf(words, "%u,%n", &type, &used) != 1) {
        return;
    }
    for (words += used; sscanf(words, "%2x", &byte) == 1 && length < sizeof block; words += 2) {
        block[length++] = (uint8_t)byte;
    }
    block[0] = (uint8_t)type;
    block[1] = 0;
    block[2] = (uint8_t)((length - 4) >> 8);
    block[3] = (uint8_t)(length - 4);
    put_at(session, 42, block, length);
}

/* A position in the stream, from its end where it is negative. */
static size_t place(const struct session *session, long at) {
    size_t position = at < 0 ? session->length - (size_t)-at : (size_t)at;
    return position < session->length ? position : session->length - 1;
}

static void drop(struct session *session, size_t at, size_t count) {
    count = count < session->length - at ? count : session->length - at;
    memmove(session->bytes + at, session->bytes + at + count, session->length - at - count);
    session->length -= count;
}

/* Changes the bytes of the stream. */
static int change_bytes(struct session *session, const char *word) {
    long at, value;
    if (sscanf(word, "cut=%ld", &at) == 1) {
        session->length = place(session, at);
    } else if (sscanf(word, "set=%ld,%lx", &at, (unsigned long *)&value) == 2) {
        session->bytes[place(session, at)] = (uint8_t)value;
    } else if (sscanf(word, "flip=%ld,%lx", &at, (unsigned long *)&value) == 2) {
        session->bytes[place(session, at)] ^= (uint8_t)value;
    } else if (sscanf(word, "drop=%ld,%ld", &at, &value) == 2) {
        drop(session, place(session, at), (size_t)value);
    } else if (sscanf(word, "zeros=%ld,%ld", &at, &value) == 2) {
        memset(session->bytes + place(session, at), 0, (size_t)value);
    } else if (strcmp(word, "id3") == 0) {
        put_before(session, "ID3\4\0\0\0\0\0\4abcd", 14);
    } else if (strcmp(word, "junk") == 0) {
        put_before(session, "some junk in front", 18);
    } else if (strcmp(word, "after") == 0) {
        put_at(session, session->length, "TAG and more after the last frame", 33);
    } else if (strncmp(word, "block=", 6) == 0) {
        put_block(session, word + 6);
    } else if (strcmp(word, "twice") == 0) {
        put_at(session, session->length, session->bytes, session->length);
    } else {
        return 0;
    }
    return 1;
}

/* Changes how the stream is read. */
static int change_reads(struct session *session, const char *word) {
    static const char *const names[] = {"noseek",    "notell",          "seekfails",  "lengthfails",
                                        "tellfails", "seekunsupported", "nometadata", "showread"};
    int *flags[] = {&session->no_seek,    &session->no_tell,          &session->seek_fails,  &session->length_fails,
                    &session->tell_fails, &session->seek_unsupported, &session->no_metadata, &session->shows_read};
    long number;
    size_t i;
    for (i = 0; i < sizeof names / sizeof names[0]; i++) {
        if (strcmp(word, names[i]) == 0) {
            *flags[i] = 1;
            return 1;
        }
    }
    if (sscanf(word, "piece=%ld", &number) == 1) {
        session->piece = (size_t)number;
    } else if (sscanf(word, "abort=%ld", &number) == 1) {
        session->abort_read = number;
    } else if (sscanf(word, "end=%ld", &number) == 1) {
        session->end_read = number;
    } else if (sscanf(word, "wabort=%ld", &number) == 1) {
        session->abort_write = number;
    } else {
        return 0;
    }
    return 1;
}

static FLAC__StreamDecoderInitStatus init(struct session *session) {
    int can_seek = !session->no_seek;
    return FLAC__stream_decoder_init_stream(
        session->decoder, on_read, can_seek ? on_seek : NULL, session->no_tell ? NULL : on_tell, can_seek ? on_length : NULL,
        can_seek ? on_eof : NULL, on_write, session->no_metadata ? NULL : on_metadata, on_error, session);
}

static FLAC__StreamDecoderInitStatus init_ogg(struct session *session) {
    int can_seek = !session->no_seek;
    return FLAC__stream_decoder_init_ogg_stream(
        session->decoder, on_read, can_seek ? on_seek : NULL, session->no_tell ? NULL : on_tell, can_seek ? on_length : NULL,
        can_seek ? on_eof : NULL, on_write, session->no_metadata ? NULL : on_metadata, on_error, session);
}

static FLAC__StreamDecoderInitStatus init_ogg_file(struct session *session, int is_named) {
    if (is_named) {
        return FLAC__stream_decoder_init_ogg_file(session->decoder, session->path, on_write, on_metadata, on_error, session);
    }
    return FLAC__stream_decoder_init_ogg_FILE(session->decoder, fopen(session->path, "rb"), on_write, on_metadata, on_error,
                                              session);
}

static FLAC__StreamDecoderInitStatus init_file(struct session *session, int is_named) {
    FILE *file = is_named ? NULL : fopen(session->path, "rb");
    FLAC__StreamDecoderInitStatus status;
    if (is_named) {
        return FLAC__stream_decoder_init_file(session->decoder, session->path, on_write, on_metadata, on_error, session);
    }
    status = FLAC__stream_decoder_init_FILE(session->decoder, file, on_write, on_metadata, on_error, session);
    if (status != FLAC__STREAM_DECODER_INIT_STATUS_OK) {
        fclose(file);
    }
    return status;
}

/* The forms with arguments that are refused. */
static int init_wrongly(struct session *session, const char *word) {
    FLAC__StreamDecoder *decoder = session->decoder;
    if (strcmp(word, "init-noread") == 0) {
        return FLAC__stream_decoder_init_stream(decoder, NULL, NULL, NULL, NULL, NULL, on_write, NULL, on_error, session);
    }
    if (strcmp(word, "init-nowrite") == 0) {
        return FLAC__stream_decoder_init_stream(decoder, on_read, NULL, NULL, NULL, NULL, NULL, NULL, on_error, session);
    }
    if (strcmp(word, "init-noerror") == 0) {
        return FLAC__stream_decoder_init_stream(decoder, on_read, NULL, NULL, NULL, NULL, on_write, NULL, NULL, session);
    }
    if (strcmp(word, "init-seekalone") == 0) {
        return FLAC__stream_decoder_init_stream(decoder, on_read, on_seek, NULL, NULL, NULL, on_write, NULL, on_error, session);
    }
    if (strcmp(word, "init-nofile") == 0) {
        return FLAC__stream_decoder_init_file(decoder, "no/such/file", on_write, NULL, on_error, session);
    }
    if (strcmp(word, "init-file-nowrite") == 0) {
        return FLAC__stream_decoder_init_file(decoder, session->path, NULL, NULL, on_error, session);
    }
    return -1;
}

static void print_values(const FLAC__StreamDecoder *decoder) {
    printf(" total %" PRIu64 ", %u channels (%d), %u bits, %u Hz, block size %u, md5 %d",
           FLAC__stream_decoder_get_total_samples(decoder), FLAC__stream_decoder_get_channels(decoder),
           FLAC__stream_decoder_get_channel_assignment(decoder), FLAC__stream_decoder_get_bits_per_sample(decoder),
           FLAC__stream_decoder_get_sample_rate(decoder), FLAC__stream_decoder_get_blocksize(decoder),
           FLAC__stream_decoder_get_md5_checking(decoder));
}

/* The calls that set something. Returns -1 where the word is none. */
static int call_set(struct session *session, const char *word) {
    FLAC__StreamDecoder *decoder = session->decoder;
    int type;
    if (strcmp(word, "md5") == 0) {
        return FLAC__stream_decoder_set_md5_checking(decoder, true);
    }
    if (strcmp(word, "nomd5") == 0) {
        return FLAC__stream_decoder_set_md5_checking(decoder, false);
    }
    if (strcmp(word, "serial") == 0) {
        return FLAC__stream_decoder_set_ogg_serial_number(decoder, 7);
    }
    if (strcmp(word, "respond=all") == 0) {
        return FLAC__stream_decoder_set_metadata_respond_all(decoder);
    }
    if (strcmp(word, "ignore=all") == 0) {
        return FLAC__stream_decoder_set_metadata_ignore_all(decoder);
    }
    if (strncmp(word, "respond=id,", 11) == 0) {
        return FLAC__stream_decoder_set_metadata_respond_application(decoder, (const FLAC__byte *)word + 11);
    }
    if (strncmp(word, "ignore=id,", 10) == 0) {
        return FLAC__stream_decoder_set_metadata_ignore_application(decoder, (const FLAC__byte *)word + 10);
    }
    if (sscanf(word, "respond=%d", &type) == 1) {
        return FLAC__stream_decoder_set_metadata_respond(decoder, (FLAC__MetadataType)type);
    }
    if (sscanf(word, "ignore=%d", &type) == 1) {
        return FLAC__stream_decoder_set_metadata_ignore(decoder, (FLAC__MetadataType)type);
    }
    return -1;
}

/* The calls that decode. Returns -1 where the word is none. */
static int call_process(struct session *session, const char *word) {
    FLAC__StreamDecoder *decoder = session->decoder;
    uint64_t sample;
    if (strcmp(word, "single") == 0) {
        return FLAC__stream_decoder_process_single(decoder);
    }
    if (strcmp(word, "metadata") == 0) {
        return FLAC__stream_decoder_process_until_end_of_metadata(decoder);
    }
    if (strcmp(word, "stream") == 0) {
        return FLAC__stream_decoder_process_until_end_of_stream(decoder);
    }
    if (strcmp(word, "skip") == 0) {
        return FLAC__stream_decoder_skip_single_frame(decoder);
    }
    if (strcmp(word, "flush") == 0) {
        return FLAC__stream_decoder_flush(decoder);
    }
    if (strcmp(word, "reset") == 0) {
        return FLAC__stream_decoder_reset(decoder);
    }
    if (strcmp(word, "finish") == 0) {
        return FLAC__stream_decoder_finish(decoder);
    }
    if (sscanf(word, "seek=%" SCNu64, &sample) == 1) {
        return FLAC__stream_decoder_seek_absolute(decoder, sample);
    }
    return -1;
}

/* The calls that begin a stream, and what the program does between calls. Returns -1 where the word is none. */
static int call_begin(struct session *session, const char *word) {
    long at;
    if (strcmp(word, "init") == 0) {
        return (int)init(session);
    }
    if (strcmp(word, "ogg") == 0) {
        return (int)init_ogg(session);
    }
    if (strcmp(word, "oggfile") == 0 || strcmp(word, "oggFILE") == 0) {
        return (int)init_ogg_file(session, word[3] == 'f');
    }
    if (strcmp(word, "file") == 0 || strcmp(word, "FILE") == 0) {
        return (int)init_file(session, word[0] == 'f');
    }
    if (sscanf(word, "goto=%ld", &at) == 1) {
        session->at = place(session, at);
        return 0;
    }
    return init_wrongly(session, word);
}

static void call(struct session *session, const char *word) {
    int got;
    printf("  %s\n", word);
    if (strcmp(word, "values") == 0) {
        got = 1;
    } else {
        got = call_set(session, word);
        got = got < 0 ? call_process(session, word) : got;
        got = got < 0 ? call_begin(session, word) : got;
    }
    if (got < 0 && !change_reads(session, word)) {
        printf("    NO SUCH CALL\n");
        return;
    }
    printf("    = %d, %s", got, state_of(session->decoder));
    print_position(session->decoder);
    if (strcmp(word, "values") == 0) {
        print_values(session->decoder);
    }
    printf("%s\n", FLAC__stream_decoder_get_client_data(session->decoder) == session ? "" : ", no client data");
}

static int load(struct session *session, const char *folder, const char *name) {
    FILE *file;
    snprintf(session->path, sizeof session->path, "%s/%s", folder, name);
    file = fopen(session->path, "rb");
    if (!file) {
        return 0;
    }
    session->length = fread(session->bytes, 1, MAX_BYTES / 4, file);
    fclose(file);
    return 1;
}

static int run(const char *folder, char *row, uint8_t *bytes, int checks_crc) {
    struct session session;
    char *word = strtok(row, " \n");
    int is_call = 0;
    memset(&session, 0, sizeof session);
    session.bytes = bytes;
    session.checks_crc = checks_crc;
    if (!load(&session, folder, word)) {
        fprintf(stderr, "calls: no file %s\n", word);
        return 0;
    }
    session.decoder = FLAC__stream_decoder_new();
    for (word = strtok(NULL, " \n"); word; word = strtok(NULL, " \n")) {
        if (strcmp(word, ":") == 0) {
            is_call = 1;
        } else if (is_call) {
            call(&session, word);
        } else if (!change_bytes(&session, word) && !change_reads(&session, word)) {
            fprintf(stderr, "calls: no such word: %s\n", word);
            return 0;
        }
    }
    FLAC__stream_decoder_delete(session.decoder);
    return !session.has_wrong_crc;
}

int main(int count, char **words) {
    char row[4096];
    uint8_t *bytes = (uint8_t *)malloc(MAX_BYTES);
    int is_right = 1, checks_crc = count == 3 && strcmp(words[2], "crc") == 0;
    if ((count != 2 && !checks_crc) || !bytes || (checks_crc && !freopen("/dev/null", "w", stdout))) {
        return 2;
    }
    while (fgets(row, sizeof row, stdin)) {
        if (row[0] != '\n' && row[0] != '#') {
            printf("%s", row);
            is_right = run(words[1], row, bytes, checks_crc) && is_right;
        }
    }
    free(bytes);
    return is_right ? 0 : 1;
}
