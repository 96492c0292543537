/* settings.c: what a program sets before it begins a stream. */
#include "decoder.h"

void default_settings(struct settings *settings) {
    free(settings->ids);
    memset(settings, 0, sizeof *settings);
    settings->responds[FLAC__METADATA_TYPE_STREAMINFO] = 1;
}

/* Forgets the application blocks that are told apart by their number. */
static void forget_ids(struct settings *settings) {
    free(settings->ids);
    settings->ids = NULL;
    settings->id_count = 0;
}

static int has_id(const struct settings *settings, const uint8_t *id) {
    size_t i;
    for (i = 0; i < settings->id_count; i++) {
        if (memcmp(settings->ids[i], id, 4) == 0) {
            return 1;
        }
    }
    return 0;
}

int responds_to(const struct settings *settings, FLAC__MetadataType type, const uint8_t *id) {
    int responds = settings->responds[type];
    return type == FLAC__METADATA_TYPE_APPLICATION && id && has_id(settings, id) ? !responds : responds;
}

static FLAC__bool set_type(FLAC__StreamDecoder *decoder, FLAC__MetadataType type, int responds) {
    struct decoder *self = decoder_of(decoder);
    if (is_initialized(self) || (unsigned)type > FLAC__MAX_METADATA_TYPE_CODE) {
        return false;
    }
    self->settings.responds[type] = (uint8_t)responds;
    if (type == FLAC__METADATA_TYPE_APPLICATION) {
        forget_ids(&self->settings);
    }
    return true;
}

static FLAC__bool set_id(FLAC__StreamDecoder *decoder, const FLAC__byte id[4], int responds) {
    struct decoder *self = decoder_of(decoder);
    struct settings *settings = &self->settings;
    FLAC__byte(*ids)[4];
    if (is_initialized(self)) {
        return false;
    }
    if (settings->responds[FLAC__METADATA_TYPE_APPLICATION] == responds) {
        return true;
    }
    ids = (FLAC__byte(*)[4])realloc(settings->ids, (settings->id_count + 1) * sizeof *ids);
    if (!ids) {
        return fail(self, FLAC__STREAM_DECODER_MEMORY_ALLOCATION_ERROR);
    }
    memcpy(ids[settings->id_count], id, 4);
    settings->ids = ids;
    settings->id_count++;
    return true;
}

static FLAC__bool set_all(FLAC__StreamDecoder *decoder, int responds) {
    struct decoder *self = decoder_of(decoder);
    if (is_initialized(self)) {
        return false;
    }
    memset(self->settings.responds, responds, sizeof self->settings.responds);
    forget_ids(&self->settings);
    return true;
}

FLAC__bool FLAC__stream_decoder_set_ogg_serial_number(FLAC__StreamDecoder *decoder, long serial_number) {
    struct decoder *self = decoder_of(decoder);
    if (is_initialized(self)) {
        return false;
    }
    self->settings.has_serial_number = true;
    self->settings.serial_number = serial_number;
    return true;
}

FLAC__bool FLAC__stream_decoder_set_md5_checking(FLAC__StreamDecoder *decoder, FLAC__bool value) {
    struct decoder *self = decoder_of(decoder);
    if (is_initialized(self)) {
        return false;
    }
    self->settings.checks_md5 = value;
    return true;
}

FLAC__bool FLAC__stream_decoder_set_metadata_respond(FLAC__StreamDecoder *decoder, FLAC__MetadataType type) {
    return set_type(decoder, type, 1);
}

FLAC__bool FLAC__stream_decoder_set_metadata_respond_application(FLAC__StreamDecoder *decoder, const FLAC__byte id[4]) {
    return set_id(decoder, id, 1);
}

FLAC__bool FLAC__stream_decoder_set_metadata_respond_all(FLAC__StreamDecoder *decoder) {
    return set_all(decoder, 1);
}

FLAC__bool FLAC__stream_decoder_set_metadata_ignore(FLAC__StreamDecoder *decoder, FLAC__MetadataType type) {
    return set_type(decoder, type, 0);
}

FLAC__bool FLAC__stream_decoder_set_metadata_ignore_application(FLAC__StreamDecoder *decoder, const FLAC__byte id[4]) {
    return set_id(decoder, id, 0);
}

FLAC__bool FLAC__stream_decoder_set_metadata_ignore_all(FLAC__StreamDecoder *decoder) {
    return set_all(decoder, 0);
}
